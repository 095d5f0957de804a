"""Prints of two profiles by callgrind_annotate, of 100 runs and of 200, what one run takes: its instructions, and the functions that take most.
Assumes what bench/profile hands over: a side's name and the two profiles."""
import re
import sys

ROW = re.compile(r'^ *([\d,]+) +\S*?:(\S.*?)(?: \[.*)?$', re.M)


def counts(path):
    """The instructions of each function."""
    with open(path) as file:
        return {name: int(count.replace(',', '')) for count, name in ROW.findall(file.read())}


def main():
    side, *paths = sys.argv[1:]
    less, more = map(counts, paths)
    single = {name: (count - less.get(name, 0)) / 100 for name, count in more.items()}
    total = sum(single.values())
    most = [f'`{name}` {count:,.0f}' for name, count in sorted(single.items(), key=lambda row: -row[1]) if count >= total / 50]
    print(f'- `{side}` {total:,.0f}: {", ".join(most)}')


main()
