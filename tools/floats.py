#!/usr/bin/env python3
"""The float operations of each crate, and the float instructions of each program that is built (document 02, #105).

    python3 tools/floats.py             lists them
    python3 tools/floats.py --faults    runs the programs with the float faults on

Run from the project's root after the gate. The operations are those of the code that the check proves and the build compiles (`rt
check --generated`), by crate and function, so they leave out nothing that a library can do; the instructions are those of the
programs that the gate leaves in out/, as LLVM builds them, by the function that they stand in after all that the compiler does. An
instruction counts that computes, compares or converts: these alone can raise a flag of IEEE 754. One that moves a register or works
on its bits does not.

With --faults each program runs with every flag but inexact made a fault that kills it, and has to write what it is to write. It
needs a C compiler.

The exit status is 1 where a library other than `gates` has a float operation, where a program that asks for no gate has a float
instruction, or where a program is killed or writes something else.
"""
import collections
import glob
import os
import re
import subprocess
import sys
import tempfile
import textwrap

# In the operations' names: float_div, int_to_float, float_to_bits, ..
OPERATION = re.compile(r'\bSyntax\.op[12]\s+\(?Syntax\.(\w*float\w*)')
# Of x86-64: SSE and AVX arithmetic, comparisons and conversions, and all of the older float unit
INSTRUCTION = re.compile(r'v?(?:(?:add|sub|mul|div|sqrt|rsqrt|rcp|min|max|cmp\w*|u?comi|round|addsub|hadd|hsub|dp|fn?m\w+)[sp][sd]|cvt\w+)|f\w+')
FUNCTION = re.compile(r'^[0-9a-f]+ <(.+)>:$')
ASKS_NO_GATE = 'list', 'numbers', 'tally', 'writing'
# The flags of MXCSR, all of them faults but the last, inexact
UNMASK = '''
__attribute__((constructor)) static void unmask(void) {
    unsigned faults = 1u << 12;
    __asm__ volatile ("ldmxcsr %0" : : "m" (faults));
}
'''


def crates():
    with open('crates.txt', encoding='utf-8') as file:
        return re.findall(r'^(\w+):', file.read(), re.M)


def programs():
    return [path.split('/')[1] for path in sorted(glob.glob('crates/*/stdout'))]


def printed(*command):
    return subprocess.run(command, stdout=subprocess.PIPE, stderr=subprocess.DEVNULL, text=True, check=True).stdout


def operations(crate):
    """By function, the float operations of a crate's own code."""
    found = {}
    with tempfile.TemporaryDirectory() as folder:
        subprocess.run(['rt', 'check', '--generated', folder], cwd=f'crates/{crate}', stdout=subprocess.DEVNULL, check=True)
        own = f'{folder}/Rattle-{crate}-proofs'
        for path in sorted(glob.glob(f'{own}/**/Code/Mir.antt', recursive=True)):
            with open(path, encoding='utf-8') as file:
                ops = collections.Counter(OPERATION.findall(file.read()))
            if ops:
                found['::'.join([crate, *os.path.relpath(path, own).split(os.sep)[:-2]])] = ops
    return found


def instructions(program):
    """By function, the float instructions of a program."""
    found, name = {}, None
    for line in printed('objdump', '-d', '--no-show-raw-insn', f'crates/{program}/out/{program}').splitlines():
        if begins := FUNCTION.match(line):
            name = begins[1]
        elif len(words := line.split('\t')) > 1 and INSTRUCTION.fullmatch(op := words[1].split()[0]):
            found.setdefault(name, collections.Counter())[op] += 1
    return found


def show(title, kinds):
    print(title)
    for name, found in kinds.items():
        for function, counts in found.items():
            print(f'    {name}: {function}: ' + ', '.join(f'{n} {op}' for op, n in sorted(counts.items())))
    none = ', '.join(name for name, found in kinds.items() if not found)
    print(textwrap.fill(f'none: {none}', 110, initial_indent='    ', subsequent_indent='        '))


def listed():
    by_crate = {crate: operations(crate) for crate in crates()}
    by_program = {program: instructions(program) for program in programs()}
    show('float operations, by crate and function', by_crate)
    show('float instructions, by program and function', by_program)
    libraries = [crate for crate, found in by_crate.items() if found and crate not in by_program]
    return libraries == ['gates'] and not any(by_program[program] for program in ASKS_NO_GATE)


def faults():
    fine = True
    with tempfile.TemporaryDirectory() as folder:
        library = os.path.join(folder, 'unmask.so')
        subprocess.run(['cc', '-shared', '-fPIC', '-nostdlib', '-x', 'c', '-', '-o', library], input=UNMASK, text=True, check=True)
        for program in programs():
            given = f'crates/{program}/stdin'
            with open(given if os.path.exists(given) else os.devnull, 'rb') as stdin:
                run = subprocess.run([os.path.abspath(f'crates/{program}/out/{program}')], stdin=stdin, stdout=subprocess.PIPE,
                                     env=dict(os.environ, LD_PRELOAD=library))
            with open(f'crates/{program}/stdout', 'rb') as stdout:
                right = run.returncode == 0 and run.stdout == stdout.read()
            print(f'{program}: ' + ('no fault' if right else f'killed or wrong, status {run.returncode}'))
            fine = fine and right
    return fine


sys.exit(not (faults() if sys.argv[1:] == ['--faults'] else listed()))
