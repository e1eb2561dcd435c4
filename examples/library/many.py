#!/usr/bin/env python3
"""Parses each file of a folder with a table file, in as many processes as there are processors, by dask.distributed.

    many.py TABLES FOLDER

It prints for each file, in the order of their names, what `lytab run` prints. dask.distributed and lytab.py must be on
Python's path.
"""
import pathlib
import sys

from dask.distributed import Client, LocalCluster
import lytab


def answer(path: pathlib.Path, tables: lytab.Tables) -> bytes:
    """What a process returns for a file: anything that can be pickled, as trees can."""
    return tables.answer(path.read_bytes())


def main(tables_path: str, folder: str) -> None:
    paths = sorted(pathlib.Path(folder).resolve().iterdir())
    with LocalCluster(dashboard_address=None) as cluster, Client(cluster) as client:
        # each process gets the tables once
        tables = client.scatter(lytab.Tables.open(tables_path), broadcast=True)
        for said in client.gather(client.map(answer, paths, tables=tables)):
            sys.stdout.buffer.write(said)


if __name__ == "__main__":
    if len(sys.argv) != 3:
        sys.exit(__doc__)
    main(*sys.argv[1:])
