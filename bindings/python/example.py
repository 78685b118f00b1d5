"""Lists the latest version of a bundle: python3 example.py BUNDLE"""
import sys

import kerumpase

with open(sys.argv[1], 'rb') as file:
    bundle = file.read()
try:
    listing = kerumpase.read_latest(bundle)
except kerumpase.Refused as refused:
    sys.exit(str(refused))
print(f'version {listing.version}, {len(listing.rows)} files, writable {listing.writable}')
for row in listing.rows:
    print(row.path.decode(), row.size, row.records)
