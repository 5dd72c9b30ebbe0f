#!/usr/bin/python3
"""Prints the contradictions as CSV, with a column for each provider: by_provider.py VERDICTS.csv SOURCES.csv

All cells are read as texts. Otherwise, pandas turns numbers of 18 digits into floats, and the text NA into NaN.
"""
import sys

import pandas

verdicts, sources = (pandas.read_csv(path, dtype=str, keep_default_na=False) for path in sys.argv[1:])
facts = verdicts[verdicts["verdict"] == "inconsistent"].merge(sources, on="fact")
facts["value"] = facts["value"].mask(facts["nil"] == "true", "nil")
facts["row"] = facts["row"].astype(int)
facts["concept"] = facts["concept"].str.rpartition("}")[2]
facts["provider"] = facts["file"].str.rpartition("/")[2]
print(facts.pivot_table(values="value", index=["row", "concept"], columns="provider", aggfunc="; ".join, fill_value="").to_csv(), end="")
