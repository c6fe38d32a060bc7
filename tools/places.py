#!/usr/bin/env python3
# Counts the places of docs/DESIGN-PASS.md's points in crates/*/src, from the top of the repository.
import glob, re, collections
files = {p: open(p).read() for p in sorted(glob.glob('crates/*/src/**/*.rt', recursive=True))}
code = {p: re.sub(r'//[^\n]*', '', s) for p, s in files.items()}
def count(rx, flags=re.M): return sum(len(re.findall(rx, s, flags)) for s in code.values())
fns = []
for p, s in code.items():
    for m in re.finditer(r'\bfn (\w+)(?:<[^>]*>)?\((.*?)\)(?: -> (.*?))?\s*(?=\n\s+requires|\n\s+ensures|\{|\n\{)', s, re.S):
        fns.append((p, m.group(1), m.group(2), (m.group(3) or '').strip()))
say = lambda what, n: print('%-96s %4d' % (what, n))
say('1  own enums', count(r'^\s*(?:pub(?:\(crate\))? )?enum \w+'))
say('1  functions that answer a refusal or a verdict as u32 or Verdict', sum(1 for f in fns if f[3] in ('u32', 'Verdict') and re.search(r'refusal|verdict|verified|check_signature|own_|two_', f[1])))
say('1  uses of a refusal as a constant number', count(r'refusal::[A-Z][A-Z_]+\b'))
say('1  tests of an answer against 0', count(r'(?:number|given|outside|two|form|n|packs) != 0\b'))
say('1  parameters that are a code: w, lms, ots, command, first/last command as u32', sum(1 for f in fns for a in re.findall(r'\b(w|lms|ots|command|last): u32', f[2])))
say('1  8 for no lane (LANES compared or handed out)', sum(len(re.findall(r'LANES <|< LANES\b(?! \{)|^\s+LANES$|= LANES;', s, re.M)) for p, s in code.items() if '/dispatcher/' in p))
say('3  while loops', count(r'^\s*while '))
say('3  while loops that count an index up', count(r'^\s*while [^\n]*\{(?:(?!\n\s*while ).)*?\n\s*\w+ \+= \d+;', re.M | re.S))
say('3  for loops', count(r'^\s*for '))
say('4  calls of octets::wide', count(r'\bwide\('))
say('5  clauses with now ≡ constants', count(r'now ≡ constants'))
say('5  clauses with Given n round keys', count(r'\bGiven [rn]'))
say('5  clauses with (w ≡ 4) ⊎ (w ≡ 8)', count(r'w ≡ 4'))
say('5  clauses with the length of an array', count(r'length \w+(?:\.now|\.old|\.new) ≡ (?:1024|96|3264|128|64|16)\b'))
say('5  clauses with Ordered places ends', count(r'Ordered places'))
say('5  functions with value, source and m (or bytes) beside one another', sum(1 for f in fns if re.search(r'source: Source', f[2])) )
say('6  functions of (list: [u32; LANES], n)', sum(1 for f in fns if 'list: [u32; LANES]' in f[2]))
say('7  function pointers and tables of functions', count(r'\bfn\('))
