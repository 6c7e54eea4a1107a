"""Stands in for pandas: a Parquet file that is a CSV file."""
import csv


class DataFrame:
    def __init__(self, rows, columns):
        self.rows, self.columns = rows, columns

    def to_parquet(self, path, index):
        with open(path, "w", newline="", encoding="utf-8") as file:
            table = csv.DictWriter(file, self.columns)
            table.writeheader()
            table.writerows(self.rows)
