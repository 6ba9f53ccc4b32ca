"""Prints the mean age of the people of each city. usage: python3 frame.py DUMP"""
import sys
from bsonfind import BsonfindError, find, to_pandas

try:
    people = to_pandas(find(sys.argv[1], {"age": {"$ne": None}}))
except BsonfindError as error:
    sys.exit(f"frame.py: {error}")
print(people.groupby("address.city")["age"].mean().round(1).nlargest(3).to_csv(header=False), end="")
