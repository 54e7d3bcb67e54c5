#!/usr/bin/env python3
"""The queries of docs/ARCHIVE.md.

    .ci/archive.py page [write]   the page has each query of examples/archive with its result, or is given them, and it has the statement
    .ci/archive.py sums BALANCES  the rows of the query for balances, on standard input, are what `issuer balances` wrote into BALANCES
    .ci/archive.py closing FILE   the sum on standard input is the closing balance of the statement in FILE
"""
import json
import pathlib
import sys

PAGE = pathlib.Path('docs/ARCHIVE.md')
STATEMENT = pathlib.Path('examples/archive/statement.jsonl')
START = '## Queries\n'
NUMBERS = {'USD': (840, 2), 'EUR': (978, 2), 'GBP': (826, 2), 'CAD': (124, 2), 'AUD': (36, 2), 'JPY': (392, 0), 'KWD': (414, 3)}


def section():
    """What the page has of the queries: each with its title, its text and its result."""
    parts = []
    for path in sorted(pathlib.Path('examples/archive').glob('[0-9]*.sql')):
        title, query = path.read_text().split('\n', 1)
        result = path.with_suffix('.out').read_text()
        parts.append(f'**{title.removeprefix("-- ")}** `{path}`\n\n```sql\n{query}```\n\n```\n{result}```\n')
    return '\n'.join(parts)


def page(write):
    """Compares the page's queries with the files, or pastes them after the section's first paragraph."""
    text = PAGE.read_text()
    if f'```\n{STATEMENT.read_text()}```' not in text:
        sys.exit(f'{PAGE}: it has not the statement of {STATEMENT}')
    before, rest = text.split(START, 1)
    here, after = rest.split('\n## ', 1)
    lead = here.strip().split('\n\n')[0]
    wanted = f'{before}{START}\n{lead}\n\n{section()}\n## {after}'
    if write:
        PAGE.write_text(wanted)
    elif text != wanted:
        sys.exit(f'{PAGE}: its queries are not those of examples/archive: .ci/archive.py page write pastes them')


def minor(amount, decimals):
    """An amount in minor units."""
    whole, _, part = amount.partition('.')
    if len(part) != decimals:
        sys.exit(f'{amount} has not {decimals} decimals')
    return int(whole + part)


def sums(balances):
    """Compares the rows with a report. An account that nothing moved has no row, and a balance of zero."""
    rows = [line.split('|') for line in sys.stdin.read().splitlines()]
    found = {(account, user, int(currency)): int(balance) for account, user, currency, balance in rows}
    told = {}
    for line in map(json.loads, pathlib.Path(balances).read_text().splitlines()):
        if 'account' in line:
            number, decimals = NUMBERS[line['currency']]
            told[line['account'], line.get('user', ''), number] = minor(line['balance'], decimals)
    if {key: sum for key, sum in found.items() if sum} != {key: sum for key, sum in told.items() if sum}:
        sys.exit(f'by SQL {found}, and by the report {told}')
    if not set(found) <= set(told):
        sys.exit(f'the report has no {set(found) - set(told)}')


def closing(statement):
    """Compares a sum in minor units, on standard input, with the last line of a statement in dollars."""
    last = json.loads(pathlib.Path(statement).read_text().splitlines()[-1])
    if last['line'] != 'closing' or minor(last['balance'], 2) != int(sys.stdin.read()):
        sys.exit(f'the last line is {last}')


if __name__ == '__main__':
    match sys.argv[1:]:
        case ['page']:
            page(False)
        case ['page', 'write']:
            page(True)
        case ['sums', balances]:
            sums(balances)
        case ['closing', statement]:
            closing(statement)
        case _:
            sys.exit(__doc__)
