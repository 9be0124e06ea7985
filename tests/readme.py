#!/usr/bin/env python3
"""README as it is written: the session's table is typed in and must be answered as it says, the C host and the one that keeps a tally are compiled, linked and run and must print
what it says, and so are the lines that keep time, over a second in which counters 1 and 2 have counts of 1,000: OUT1 falls every 1,000 ticks, OUT2 at the 1,000,000th tick and every
1,000,000 from there.

    readme.py SESSION LIBRARY TURN TALLY     the session program, the static libraries of cowriestep, of cowriestep_turn and of cowriestep_tally
"""
import os
import platform
import re
import shutil
import subprocess
import sys
import tempfile

session, *libraries = sys.argv[1:]
readme = open('README.md').read()


def section(title):
    return readme.split(f'\n## {title}\n')[1].split('\n## ')[0]


def told(what, wanted, got):
    if wanted != got:
        sys.exit(f'tests/readme.py: {what}: README says\n{wanted}\nand what came is\n{got}')


rows = re.findall(r'^\| `([^`]*)` \| `([^`]*)` \|', section('A session'), re.M)
if len(rows) < 10:
    sys.exit('tests/readme.py: the table of the session was not found')
typed = ''.join(line + '\n' for line, _ in rows)
told('a session', ''.join(line + '\n' for _, line in rows), subprocess.run([session], input=typed, capture_output=True, text=True, check=True).stdout)

if platform.machine() != 'x86_64' and not shutil.which('x86_64-linux-gnu-gcc'):
    print(f'tests/readme.py: {len(rows)} lines of a session do as README says; no C compiler for x86-64 here: the C hosts were NOT run')
    sys.exit()


def printed(code):
    """What a C program prints that is linked with the library."""
    with tempfile.TemporaryDirectory() as room:
        host = os.path.join(room, 'host')
        with open(host + '.c', 'w') as out:
            out.write(code)
        subprocess.run([os.environ.get('CC', 'cc'), '-Wall', '-Wextra', '-Werror', '-Iinclude', host + '.c', *libraries, '-o', host], check=True)
        return subprocess.run([host], capture_output=True, text=True, check=True).stdout


def lines_of_code(text):
    return '\n'.join(line[4:] for line in text.splitlines() if line.startswith('    ') or not line)


for title in ('A C host', 'Where every sample went'):
    code, rest = section(title).split('\nWith these lines')
    told(title, '\n'.join(re.findall(r'`([^`]*)`', re.search(r'this prints (.*):\n', rest).group(1))) + '\n', printed(lines_of_code(code)))
keeping = lines_of_code(section('Keeping time'))
told('keeping time', '10 conversions, 10 samples, tick 10000100\n', printed(f'''#include "cowriestep.h"
#include <stdio.h>
static int conversions;
static int16_t code_of(unsigned channel) {{ conversions++; return (int16_t)channel; }}
static void raise_interrupt(void) {{ }}
{keeping}
int main(void) {{
    static uint16_t memory[512];
    static uint8_t eeprom[128];
    static const uint8_t writes[][2] = {{{{8, 0}}, {{15, 0x74}}, {{13, 0xE8}}, {{13, 3}}, {{15, 0xB4}}, {{14, 0xE8}}, {{14, 3}}, {{9, 3}}}};
    struct dmm32_board board = dmm32_fresh(0, 0);
    uint64_t now = 0, end_at = UINT64_MAX;
    for (unsigned i = 0; i < sizeof writes / sizeof writes[0]; i++) dmm32_write_byte(&board, memory, 512, eeprom, 128, writes[i][0], writes[i][1]);
    advance_to(&board, memory, eeprom, &now, 10000100, &end_at);
    printf("%d conversions, %d samples, tick %llu\\n", conversions, board.fifo.held, (unsigned long long)now);
    return 0;
}}
'''))
print(f'tests/readme.py: {len(rows)} lines of a session, the C host, the tally and the lines that keep time do as README says')
