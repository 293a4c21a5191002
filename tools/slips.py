#!/usr/bin/env python3
"""Slips made in definition and code alike: each has to be refused.

    python3 tools/slips.py DIR [NAME ..]
    python3 tools/slips.py --fits [NAME ..]    tells only whether each slip's texts stand where it changes them

An edit of must-fail/ changes the code and leaves the definition, so a promise fails. These change both, and the proofs that
only follow the code, so that each function still keeps its promise: what refuses them is a statement that does not share the
definition's words. Each is made in a copy, under DIR, of `demands` and the crates below it, where `rt all check` has to fail; it
prints the crate that refuses. It takes some minutes a slip.
"""
import os
import re
import shutil
import subprocess
import sys

OWN_CUT, FIRST_CUT = 'cut_place(w.count.cut)', 'cut_place(1)'
OWN, FIRST = 'cut_place w.count.cut', 'cut_place 1'
BY_SCAN, BY_CUT = 'cond (rhi scan) 6 (cond (ltb cut cuts) 2 4)', 'cond (ltb cut cuts) 2 (cond (rhi scan) 6 4)'
CLOSING = 'crates/rules/proofs/states/closing/Answers.antt'
OTHER_SCAN = 'not-turned _ c.in_default.in_default-own.rest.1'
EARLIER, LAST = (f'{law} a.cut a.cuts (omega arith)' for law in ('lt-ltb', 'le-ltb'))
NOT_SUC = '''not-suc : (a b : ℕ) → not (leb (a + 1) b) ≡ leb b a
not-suc a b = dite (dec_lt b (a + 1)) (λ h. rw (lt-leb (a + 1) b h, le-leb b a (omega arith))) (λ h. rw (le-leb (a + 1) b (omega arith), lt-leb b a (omega arith)))

'''
SAME_KINDS, ENOUGH_KINDS = 'eqb (length k) (length codes)', 'leb (length codes) (length k)'
SAME_HUNDREDTHS, ENOUGH_HUNDREDTHS = 'eqb (length h) (length codes)', 'leb (length codes) (length h)'
ONE_BYTE, TWO_BYTES = 'cond (bit sizes t) true (is 1 (short bin))', 'cond (bit sizes t) (is 2 (short bin)) true'
CHECKED = 'crates/decoded/proofs/Checked.antt'
OLD, CODES, HEADERS = (f'crates/old/specs/{name}.antt' for name in ('Old', 'Codes', 'Headers'))
KEPT = 'crates/old/proofs/Kept.antt'
OLD_RECORD, OLD_HEADERS = (f'crates/old/src/{name}.rt' for name in ('record', 'headers'))
BROKEN, AT, AT_END = 'answer = Refused c.number ', 'at;', 'before.walk.at;'
MENDED, LAY, REPORT = 'crates/mend/specs/Mend.antt', 'crates/mend/src/lay.rt', 'crates/mend/src/report.rt'
KEEPING, PIECES, CLOSED, VIEW, MEND_BYTES, PAIRED, WHOLE, REPORTS, GROWING, KEPT_OF, LAST_STATE, LAID = (
    f'crates/mend/proofs/{path}.antt' for path in ('Keeping', 'Pieces', 'Closed', 'View', 'Bytes', 'Paired', 'Whole', 'Reports', 'Growing',
                                                   'keep/kept_of/Answers', 'lay/last_state/Answers', 'lay/lay/Answers'))
NEWEST_IF = '\n    ∙ ap (λ (b : Bool). cond b (Some s) a.before) '
KEPT_IF = ' ∙ ap (λ (x : Bool). cond x (ss ++ (l ∷ [])) ss) '
KEPT_CUT, OWN_CUTS = 'behind_cut s.cut', 'behind_cut (cut_number f)'
PICKED, WANTED = 'crates/pick/specs/Pick.antt', 'crates/pick/specs/Keep.antt'
PICK_KEEP, PICK_LAY, PICK_PLAN = (f'crates/pick/src/{name}.rt' for name in ('keep', 'lay', 'plan'))
WANTING, LAYING, TURNS, PLANNING, PLANS, EMPTY, PICK_BYTES, PICK_AGAIN, PICK_FIRST, LAY_CUT = (
    f'crates/pick/proofs/{path}.antt' for path in ('Keeping', 'Laying', 'Turns', 'Planning', 'Plans', 'plan/first_empty/Answers', 'Bytes', 'Again', 'First',
                                                   'lay/lay_cut/Answers'))
OWN_MASK, MASK_THERE, MASK = 'bit_and (le 8 b 84) wanted', 'bit_and (le 8 f (at + 84)) wanted', 'bit_and m wanted'
OR_ELSE = '''-- what was found, or else something
unfoldable pub or_else : Option Stretch → Option Stretch → Option Stretch
or_else None other = other
or_else (Some s) other = Some s

'''
THIS_EMPTY, FIRST_EMPTY = (f'cond (empties wanted (bytes_of f s)) (Some s) {rest}' for rest in ('None', '(first_empty wanted f ss)'))
FOUND = 'ap (λ (x : Option Stretch). or_else x (cond (eqb a.moments 0) (Some a.s) None)) '
RETURNS_FOUND = f'''pub returns-in-Some : goal.returns-in-Some
unfolding or_else
returns-in-Some c =
    let a = c.args in
    let e = c.in-Some.is in
    e ∙ sym ({FOUND}e)

'''
NOT_ZERO = '(let z : ◌≡◌ {A = ℕ} 0 1 = cc in omega arith)'
NONE_HERE, NONE_IN = 'empties (bit_and m w) (bytes_of f i)', 'first_empty (bit_and m w) f ss'
MEETS_CALL = f'go ({NONE_HERE}) refl e (meets bs s xs ys)'
MEETS_GO = f'''        go : (t : Bool) → {NONE_HERE} ≡ t → cond t (Some i) ({NONE_IN}) ≡ Some s → ({NONE_IN} ≡ Some s → Meets s ss us) → Meets s (i ∷ ss) (j ∷ us)
        go true d q rest = let k = empties-twice i j b x y ∙ d in record {{ before = 0; then = j; here = q; there = refl; second = rw k }}
        go false d q rest =
            let k = empties-twice i j b x y ∙ d in
            let r = rest q in
            record {{ before = suc r.before; then = r.then; here = r.here; there = r.there; second = rw k r.second }}
'''
MEETS_LAST = f'''        go : (l : Option Stretch) → {NONE_IN} ≡ l → (t : Bool) → {NONE_HERE} ≡ t → or_else l (cond t (Some i) None) ≡ Some s
            → ({NONE_IN} ≡ Some s → Meets s ss us) → Meets s (i ∷ ss) (j ∷ us)
        go (Some u) l t d q rest =
            let r = rest (l ∙ q) in
            record {{ before = suc r.before; then = r.then; here = r.here; there = r.there; second = rw r.second }}
        go None l true d q rest =
            let k = empties-twice i j b x y ∙ d in
            record {{ before = 0; then = j; here = q; there = refl; second = rw (none_then bs xs ys l, k) }}
        go None l false d q rest = absurd {NOT_ZERO}
'''
MEETS_ON = f'''        go : ({NONE_IN} ≡ Some s → Meets s ss us) → Meets s (i ∷ ss) (j ∷ us)
        go rest =
            let r = rest e in
            record {{ before = suc r.before; then = r.then; here = r.here; there = r.there; second = r.second }}
'''
NONE_THEN = f'''    none_then : {{ss us : List Stretch}} (bs : List VolumeRadial) → Owned f ss bs → Owned g us (map (only_radial m) bs)
        → {NONE_IN} ≡ None → first_empty w g us ≡ None
    unfolding first_empty or_else
    none_then [] none none e = refl
    none_then (b ∷ bs) (more {{s = i}} {{ss = ss}} x xs) (more {{s = j}} {{ss = us}} y ys) e =
        go ({NONE_IN}) refl ({NONE_HERE}) refl (none_then bs xs ys)
      where
        go : (l : Option Stretch) → {NONE_IN} ≡ l → (t : Bool) → {NONE_HERE} ≡ t → ({NONE_IN} ≡ None → first_empty w g us ≡ None)
            → or_else (first_empty w g us) (cond (empties w (bytes_of g j)) (Some j) None) ≡ None
        go (Some u) l t d rest = absurd (let q = rw l at e in {NOT_ZERO})
        go None l true d rest = absurd (let q = rw (l, d) at e in {NOT_ZERO})
        go None l false d rest = let k = empties-twice i j b x y ∙ d in rw (rest l, k)

'''
EACH_GO = '''  each_of (x ∷ ss) e n h = go (empties wanted (bytes_of f x)) refl e n h (each_of ss)
    where
      go : (b : Bool) → empties wanted (bytes_of f x) ≡ b → cond b (Some x) (first_empty wanted f ss) ≡ None → (n : ℕ) → (radial_told f (nth (x ∷ ss) n)).number ≡ 0
          → (first_empty wanted f ss ≡ None → (m : ℕ) → (radial_told f (nth ss m)).number ≡ 0 → SomeKept ss m) → SomeKept (x ∷ ss) n
      go true d r n k rest = absurd (let z : ◌≡◌ {A = ℕ} 0 1 = cc in omega arith)
      go false d r zero k rest = absurd (omega arith)
      go false d r (suc zero) k rest = some-told x d
      go false d r (suc (suc m)) k rest = rest r (suc m) k

'''
EACH_LAST = '''  each_of (x ∷ ss) e n h = go (first_empty wanted f ss) refl (empties wanted (bytes_of f x)) refl e n h (each_of ss)
    where
      go : (l : Option Stretch) → first_empty wanted f ss ≡ l → (b : Bool) → empties wanted (bytes_of f x) ≡ b → or_else l (cond b (Some x) None) ≡ None
          → (n : ℕ) → (radial_told f (nth (x ∷ ss) n)).number ≡ 0
          → (first_empty wanted f ss ≡ None → (m : ℕ) → (radial_told f (nth ss m)).number ≡ 0 → SomeKept ss m) → SomeKept (x ∷ ss) n
      go (Some u) l b d r n k rest = absurd (let z : ◌≡◌ {A = ℕ} 0 1 = cc in omega arith)
      go None l true d r n k rest = absurd (let z : ◌≡◌ {A = ℕ} 0 1 = cc in omega arith)
      go None l false d r zero k rest = absurd (omega arith)
      go None l false d r (suc zero) k rest = some-told x d
      go None l false d r (suc (suc m)) k rest = rest l (suc m) k

'''
FIRST_GO = '''  first_of (x ∷ ss) s e = go (empties wanted (bytes_of f x)) refl e (first_of ss s)
    where
      go : (b : Bool) → empties wanted (bytes_of f x) ≡ b → cond b (Some x) (first_empty wanted f ss) ≡ Some s
          → (first_empty wanted f ss ≡ Some s → FirstOf ss s) → FirstOf (x ∷ ss) s
      go true d r rest = let q : x ≡ s = cc in record { before = 0; is = ap Some q; empty = ap (λ (y : Stretch). empties wanted (bytes_of f y)) (sym q) ∙ d; others = λ k low high. absurd (omega arith) }
      go false d r rest =
          let n = rest r in
          record { before = suc n.before; is = n.is; empty = n.empty; others = later n.before d n.others }
        where
          later : (m : ℕ) → empties wanted (bytes_of f x) ≡ false → ((k : ℕ) → 1 ≤ k → k ≤ m → SomeKept ss k) → (k : ℕ) → 1 ≤ k → k ≤ suc m → SomeKept (x ∷ ss) k
          later m d o zero low high = absurd (omega arith)
          later m d o (suc zero) low high = some-told x d
          later m d o (suc (suc k)) low high = o (suc k) (omega arith) (omega arith)

'''
FIRST_NEVER = '''  first_of (x ∷ ss) s e = absurd (never ss e)
    where
      never : (us : List Stretch) → first_empty wanted f us ≡ Some s → ⊥
      never [] q = (let z : ◌≡◌ {A = ℕ} 0 1 = cc in omega arith)
      never (u ∷ us) q = never us q

'''
OR_NONE = '''  or-none : (x : Option Stretch) → or_else x None ≡ x
  unfolding or_else
  or-none None = refl
  or-none (Some s) = refl

'''

ENGINE, ENGINE_CODE = 'crates/engine/specs/Engine.antt', 'crates/engine/src/lib.rt'
FILLING, MEANING, KIND, HUNDREDTHS, LIST_ANSWER = (
    f'crates/engine/proofs/{path}.antt' for path in ('Filling', 'Meaning', 'kind/Answers', 'hundredths_of/Answers', 'answer/Answers'))
FORMS, SAID, SAID_BACK, SAYS, FIND, RADIALS_AT = (
    f'crates/index/{path}' for path in ('specs/Forms.antt', 'src/said.rt', 'proofs/Forms.antt', 'proofs/Says.antt', 'proofs/said/find/Answers.antt',
                                        'proofs/said/radials_at/Answers.antt'))
BELOW = '''below : {a : Telling Values} {k : ℕ} {h : ℤ} → Stands a k h → k < 256
below (its_own l) = omega arith
below no-radial = lit< tt
below no-moment = lit< tt
below no-gate = lit< tt
'''
BELOW_BY_ITSELF = '''module _ (h : Moment) (bytes : List ℕ) (i : ℕ) where
  below_in : kind_shown (gate_in h bytes i) < 256
  unfolding gate_in kind_shown
  below_in = go (ltb i (length (codes_of h.bin_length bytes))) refl
    where
      go : (b : Bool) → ltb i (length (codes_of h.bin_length bytes)) ≡ b → kind_shown (gate_in h bytes i) < 256
      go true q = let k = kind-lt (told_of (coding_of h) (get_or (codes_of h.bin_length bytes) i 0)).gate in rw q (omega arith)
      go false q = rw q (lit< tt)

below : (f : List ℕ) (w : Where) (i : ℕ) → kind_shown (gate_told f w i) < 256
unfolding gate_told kind_shown
below f NoRadial i = lit< tt
below f NoMoment i = lit< tt
below f (At s p) i = below_in _ _ i
'''
RADIALS_NEW = '''-- the new form
pub returns-then-cuts-eq0 : goal.returns-then-cuts-eq0
unfolding radials_at cuts_said counts_at
returns-then-cuts-eq0 c =
    let x = c.args.index.now in
    let e = eq-eqb (old_cuts x) 0 (sym c.old_cuts-cuts.ensures ∙ c.if-cuts-eq0.true) in
    (rw (e, ← c.u16_at.ensures), omega arith)

'''
RADIALS_OLD = '''pub returns-else-cuts-eq0 : goal.returns-else-cuts-eq0
unfolding radials_at cuts_said counts_at
returns-else-cuts-eq0 c =
    let x = c.args.index.now in
    let e = ne_eqb (old_cuts x) 0 (λ z. c.if-cuts-eq0.false (c.old_cuts-cuts.ensures ∙ z)) in
    (rw (e, ← c.old_cuts-cuts.ensures), omega arith)
'''
RADIALS_OLD_ALONE = '''pub returns : goal.returns
unfolding radials_at
returns c = (rw (← c.old_cuts-cuts.ensures), omega arith)
'''
INDEX_FIRST = '    if !index::right(file, index) {\n        return Err(Refusal::WrongIndex);\n    }\n'
NEITHER = '''  neither : (b : Bool) → (b && false) ≡ false
  neither true = refl
  neither false = refl

'''
LIST_59 = '''    go false q b s =
        let here : answered m ≡ refused 59 0 = sym e ∙ rw q at p.answer in
        absurd (let z : ◌≡◌ {A = ℕ} 0 1 = cc in omega arith)
'''
LIST_59_LAST = '''    go false q true s =
        let here : answered m ≡ refused 59 0 = sym e ∙ rw (q, s) at p.answer in
        absurd (let z : ◌≡◌ {A = ℕ} 0 1 = cc in omega arith)
    go false q false s =
        let here : answered m ≡ refused 33 0 = sym e ∙ rw (q, s) at p.answer in
        absurd (let z : ◌≡◌ {A = ℕ} 0 1 = cc in omega arith)
'''
NOT_RIGHT = 'returns-then-not-right c = not_right _ _ _ _ _ (sym c.right.ensures ∙ c.if-not-right.true)\n'
NOT_RIGHT_LAST = '''returns-then-not-right c =
    let e = many-asked c.args.radials.now c.args.types.now c.args.gates.now in
    not_right _ _ _ _ _ (sym c.right.ensures ∙ c.if-not-right.true) (omega arith) (omega arith)
'''
SHORT = 'short _ _ _ _ _ (sym c.right.ensures ∙ c.if-not-right.false) (omega arith)'
SHORT_FIRST = 'short _ _ _ _ _ (omega arith)'
FIND_NONE = '''pub returns-then-sequence-eq0 : goal.returns-then-sequence-eq0
unfolding place_said
returns-then-sequence-eq0 c = rw c.if-sequence-eq0.true
'''
FIND_FIRST = '''number-3 : (c : goal.After-u64_at) → let a = c.args in c.u32_at.result ≡ le 4 a.index.now (radials_at a.index.now)
number-3 c = c.u32_at.ensures ∙ ap (le 4 c.args.index.now) c.radials_at-at.ensures.0

pub returns-then-sequence-eq0 : goal.returns-then-sequence-eq0
unfolding place_said
returns-then-sequence-eq0 c =
    let a = c.args in
    let n = number-3 c in
    let z = c.if-sequence-eq0.true in
    let e : radials_at a.index.now + 4 ≡ radials_at a.index.now + 4 + 8 * (a.sequence - 1) = omega arith in
    rw (le-leb a.sequence (le 4 a.index.now (radials_at a.index.now)) (omega arith), ← e, c.u64_at.ensures, c.radials_at-at.ensures.0)
'''
ZERO_NOWHERE = '    if sequence == 0 {\n        return None;\n    }\n'
ZERO_FIRST = '    if sequence == 0 {\n        return Some(le::u64_at(index, at + 4) as usize);\n    }\n'


def swapped(path, one, other):
    return [(path, one, '\0'), (path, other, one), (path, '\0', other)]


SLIPS = {
    # every radial judged by the masks of cut 1 (numbers 20 and 23)
    'masks_of_cut_one': [
        ('crates/reading/specs/Step.antt', f'cut_in p w = cut_at p ({OWN})', f'cut_in p w = cut_at p ({FIRST})'),
        ('crates/reading/src/step.rt', OWN_CUT, FIRST_CUT),
        ('crates/reading/src/whole.rt', OWN_CUT, FIRST_CUT),
        ('crates/writer/src/on.rt', OWN_CUT, FIRST_CUT),
        ('crates/reading/proofs/Masks.antt', OWN, FIRST),
        ('crates/writer/proofs/Again.antt', OWN, FIRST),
        ('crates/writer/proofs/EachKind.antt', OWN, FIRST),
        ('crates/writer/proofs/Places.antt', OWN, FIRST),
        ('crates/writer/proofs/on/radial_on/Answers.antt', OWN, FIRST),
        ('crates/shelf/src/settle.rt', OWN_CUT, FIRST_CUT),
        ('crates/shelf/proofs/settle/settle_radial/Answers.antt', OWN, FIRST),
        ('crates/shelf/proofs/Over.antt', OWN, FIRST),
        ('crates/shelf/proofs/Over.antt', 'let k = 256 * (w.count.cut - 1) in', 'let k : ℕ = 0 in'),
    ],
    # the sequence counted from the cut's start (number 12)
    'sequence_from_the_cut': [
        ('crates/walk/specs/After.antt', 'whole = cond more w.count.whole w.present.sequence;',
         'whole = cond more w.count.whole (cond (closes && later) 0 w.present.sequence);'),
        ('crates/walk/src/after.rt', 'cut: w.count.cut + 1,\n                whole,', 'cut: w.count.cut + 1,\n                whole: 0,'),
    ],
    # classes of types 13 and 14 (document 02, #101)
    'other_types': [
        ('crates/gates/specs/Gates.antt', 'eqb t 14 || eqb t 15', 'eqb t 13 || eqb t 14'),
        ('crates/gates/src/lib.rt', '14 | 15', '13 | 14'),
        ('crates/gates/proofs/Gates.antt', 't 14', 't 13'),
        ('crates/gates/proofs/Gates.antt', '≡ 14', '≡ 13'),
        ('crates/gates/proofs/Gates.antt', 't 15', 't 14'),
        ('crates/gates/proofs/Gates.antt', '≡ 15', '≡ 14'),
    ],
    # unknown and reserved counted for each other
    'other_kinds': [
        ('crates/gates/specs/Counting.antt', 'unknown = count_of 3 kinds;\n  reserved = count_of 4 kinds;',
         'unknown = count_of 4 kinds;\n  reserved = count_of 3 kinds;'),
        ('crates/gates/src/lib.rt', 'Gate::Unknown => u.unknown = a.unknown + 1,\n        Gate::Reserved => u.reserved = a.reserved + 1,',
         'Gate::Unknown => u.reserved = a.reserved + 1,\n        Gate::Reserved => u.unknown = a.unknown + 1,'),
    ],
    # types 2 and 5 taken for each other in how many cuts a task may have (number 8; document 02, #103)
    'two_in_layers': [
        ('crates/rules/specs/States.antt', 'cond (is 2 (int scan)) 1', 'cond (is 5 (int scan)) 1'),
        ('crates/rules/src/states.rt', '2 => 2,', '5 => 2,'),
        ('crates/rules/proofs/states/cut_number_breaks/Answers.antt', 'in-2', 'in-5'),
        ('crates/rules/proofs/Numbers.antt', 'scan ≡ 2 → most_cuts', 'scan ≡ 5 → most_cuts'),
        ('crates/rules/proofs/Numbers.antt', '(scan ≡ 2 → ⊥) → most_cuts', '(scan ≡ 5 → ⊥) → most_cuts'),
        ('crates/rules/proofs/Numbers.antt', 'exactly w32 2 scan (lit< tt), eq-eqb scan 2 e', 'exactly w32 5 scan (lit< tt), eq-eqb scan 5 e'),
        ('crates/rules/proofs/Numbers.antt', 'exactly w32 2 scan (lit< tt), ne_eqb scan 2 h', 'exactly w32 5 scan (lit< tt), ne_eqb scan 5 h'),
        ('crates/rules/proofs/Numbers.antt', 'small-if (is 2 (int scan))', 'small-if (is 5 (int scan))'),
        ('crates/rules/proofs/Numbers.antt', 'go (is 2 (int scan))', 'go (is 5 (int scan))'),
    ],
    # document 01's own rule for type 5, before document 02, #103: a cut before the last closed by 2
    'layer_closed_by_two': [
        ('crates/rules/specs/States.antt', BY_SCAN, BY_CUT),
        ('crates/rules/src/states.rt', '    match scan {\n        2 | 5 => 6,\n        _ => if cut < cuts { 2 } else { 4 },',
         '    if cut < cuts {\n        return 2;\n    }\n    match scan {\n        2 | 5 => 6,\n        _ => 4,'),
        ('crates/rules/proofs/Numbers.antt', 'small-if (rhi scan) 6 (cond (ltb cut cuts) 2 4) 2147483648 (lit< tt) (small-if (ltb cut cuts) 2 4 ',
         'small-if (ltb cut cuts) 2 (cond (rhi scan) 6 4) 2147483648 (lit< tt) (small-if (rhi scan) 6 4 '),
        ('crates/rules/proofs/Numbers.antt', '(cond r 6 (cond d 2 4))', '(cond d 2 (cond r 6 4))'),
        ('crates/rules/proofs/Numbers.antt', 'go true a d e = omega arith', 'go true a true e = omega arith\n    go true a false e = omega arith'),
        (CLOSING, 'rw (turned _ c.in-2.is)', f'let a = c.args in rw ({LAST}, turned _ c.in-2.is)'),
        (CLOSING, f'rw ({OTHER_SCAN}, {EARLIER})', f'rw ({EARLIER})'),
        (CLOSING, f'rw ({OTHER_SCAN}, {LAST})', f'rw ({LAST}, {OTHER_SCAN})'),
        (CLOSING, 'returns-else-cut-cuts', 'returns-in_default'),
        (CLOSED, '(cond r 6 (cond a 2 4))', '(cond a 2 (cond r 6 4))'),
        (CLOSED, 'go true a e = omega arith', 'go true true e = omega arith\n    go true false e = omega arith'),
    ],
    # an elevation from -3 on (number 16)
    'elevation_from_minus_three': [
        ('crates/radial/specs/Radial.antt', 'angle (negsuc 1) (pos 90) r.elevation', 'angle (negsuc 2) (pos 90) r.elevation'),
        ('crates/rules/specs/Ranges.antt', '0xC000_0000', '0xC040_0000'),
        ('crates/rules/src/angles.rt', '0xC000_0000', '0xC040_0000'),
        ('crates/rules/proofs/Four.antt', 'negsuc 1)', 'negsuc 2)'),
        ('crates/rules/proofs/Four.antt', '0x4000_0000', '0x4040_0000'),
        ('crates/rules/proofs/angles/elevation_ok/Answers.antt', '0xC000_0000', '0xC040_0000'),
        ('crates/old/proofs/Fine.antt', 'negsuc 1)', 'negsuc 2)'),
        ('crates/old/proofs/Fine.antt', '2 * down e', '3 * down e'),
    ],
    # a code over a scale of 0 told as 1 (document 02, #105)
    'one_over_zero': [
        ('crates/gates/specs/Gates.antt', '(fin false 0 (pos 0)) (div', '(fin false 1 (pos 0)) (div'),
        ('crates/gates/src/lib.rt', 'if c.scale == 0 {\n        0.0', 'if c.scale == 0 {\n        1.0'),
        ('crates/gates/proofs/Gates.antt', 'float_of c code ≡ fin false 0 (pos 0)', 'float_of c code ≡ fin false 1 (pos 0)'),
    ],
    # 255 cuts at the most (number 8; document 02, #106)
    'cuts_to_255': [
        ('crates/rules/specs/States.antt', 'most_of_any = 256', 'most_of_any = 255'),
        ('crates/rules/src/states.rt', '2..=256 =>', '2..=255 =>'),
        ('crates/rules/proofs/states/cut_number_breaks/Answers.antt', 'w32 1 256', 'w32 1 255'),
        ('crates/rules/proofs/states/cut_number_breaks/Answers.antt', 'lt257', 'lt256'),
        ('crates/rules/proofs/Numbers.antt', 'most_cuts scan ≡ 256', 'most_cuts scan ≡ 255'),
        ('crates/rules/proofs/Numbers.antt', 'most_cuts scan < 257', 'most_cuts scan < 256'),
        ('crates/rules/proofs/Numbers.antt', '1 256 257', '1 255 256'),
        ('crates/rules/proofs/Numbers.antt', 'cond b 1 256', 'cond b 1 255'),
        ('crates/rules/proofs/Numbers.antt', '(pos 256) (int n)', '(pos 255) (int n)'),
        ('crates/rules/proofs/Numbers.antt', 'inside w32 1 256 n', 'inside w32 1 255 n'),
    ],
    # the sequence up to 65,535 (number 12; document 02, #106)
    'sequence_to_65535': [
        ('crates/rules/specs/Ranges.antt', 'most_sequence = 65536', 'most_sequence = 65535'),
        ('crates/radial/src/lib.rt', '1..=65536 =>', '1..=65535 =>'),
        ('crates/radial/src/lib.rt', '65537..=', '65536..='),
        ('crates/radial/proofs/sequence_breaks/Answers.antt', '1-to-65536', '1-to-65535'),
        ('crates/radial/proofs/sequence_breaks/Answers.antt', '65537-to', '65536-to'),
        ('crates/radial/proofs/sequence_breaks/Answers.antt', 'lt65537', 'lt65536'),
    ],
    # an index of 51 cuts in the old form (document 02, #106)
    'old_form_to_51': [
        ('crates/index/specs/Index.antt', 'most_old = 50', 'most_old = 51'),
        ('crates/index/src/making.rt', 'cuts <= 50', 'cuts <= 51'),
    ],
    # the two bytes of the number of cuts swapped in the new form (document 02, #106)
    'cuts_swapped': [
        ('crates/index/specs/Index.antt', 'new_start cuts = 0 ∷ bytes 2 cuts', 'new_start cuts = 0 ∷ bytes 1 (cuts / 256) ++ bytes 1 cuts'),
        ('crates/index/specs/Index.antt', '{ℕ, zero, suc, ◌+◌, ', '{ℕ, zero, suc, ◌+◌, ◌/◌, '),
        ('crates/index/src/making.rt', '[0, (cuts % 256) as u8, (cuts / 256 % 256) as u8]', '[0, (cuts / 256 % 256) as u8, (cuts % 256) as u8]'),
        ('crates/index/proofs/Starts.antt', 'use Rattle.le.specs.Le.{part}', 'use Rattle.le.specs.Le.{bytes, part}'),
        ('crates/index/proofs/Starts.antt', 'unfolding new_start\nlength-new cuts = ap suc (length-bytes 2 cuts)', 'unfolding new_start bytes\nlength-new cuts = refl'),
    ],
    # the end of a wedge counted in (document 02, #114)
    'end_counted_in': [
        ('crates/wedge/specs/Wedge.antt', 'not (reaches end x)', 'not (reaches (end + 1) x)'),
        ('crates/wedge/specs/Wedge.antt', 'ℕ, ◌*◌, eqb', 'ℕ, ◌+◌, ◌*◌, eqb'),
        ('crates/wedge/src/lib.rt', 'h < self.end', 'h <= self.end'),
        ('crates/wedge/proofs/Wedges.antt', 'ltb h end)', 'leb h end)'),
        ('crates/wedge/proofs/Wedges.antt', 'w start, w end, not-leb end h)', 'w start, w (end + 1), not-suc end h)'),
        ('crates/wedge/proofs/Wedges.antt', '-- by the whole part\n', NOT_SUC),
        ('crates/wedge/proofs/Wedges.antt', '{ℕ, ◌*◌', '{ℕ, ◌+◌, ◌*◌'),
    ],
    # equal ends of a wedge taken as empty (document 02, #114)
    'equal_ends_empty': [
        ('crates/wedge/specs/Wedge.antt', 'cond (ltb start end)', 'cond (leb start end)'),
        ('crates/wedge/src/lib.rt', 'if self.start < self.end', 'if self.start <= self.end'),
        ('crates/wedge/proofs/Wedges.antt', 'start < end → between', 'start ≤ end → between'),
        ('crates/wedge/proofs/Wedges.antt', 'end ≤ start → between', 'end < start → between'),
        ('crates/wedge/proofs/Wedges.antt', 'rw (lt-ltb start end l,', 'rw (le-leb start end l,'),
        ('crates/wedge/proofs/Wedges.antt', 'rw (le-ltb start end l,', 'rw (lt-leb start end l,'),
    ],
    # an end of 36,000 let in (number 61; document 02, #114)
    'wedge_to_36000': [
        ('crates/wedge/src/lib.rt', '0..=35999 =>', '0..=36000 =>'),
        ('crates/wedge/proofs/Wedge/ok/Answers.antt', '36000', '36001'),
        ('crates/wedge/proofs/Wedge/ok/Answers.antt', '0-to-35999', '0-to-36000'),
        ('crates/wedge/specs/Wedge.antt', 'ltb w.start circle && ltb w.end circle', 'ltb w.start 36001 && ltb w.end 36001'),
    ],
    # a wedge of elevations (document 02, #114)
    'elevation_for_azimuth': [
        ('crates/ask/specs/Tallies.antt', '(radial_at (bytes_of f s) 0).azimuth', '(radial_at (bytes_of f s) 0).elevation'),
        ('crates/ask/src/tallies.rt', 'Radial::AZIMUTH', 'Radial::ELEVATION'),
        ('crates/ask/proofs/Tallying.antt', '(radial_at b 0).azimuth ≡ le 4 b 20', '(radial_at b 0).elevation ≡ le 4 b 24'),
        ('crates/ask/proofs/Tallying.antt', 'le-part 4 64 b 0 20', 'le-part 4 64 b 0 24'),
    ],
    # radials counted as blank whose spot blank is 0 (document 02, #114)
    'blanks_of_zero': [
        ('crates/ask/specs/Tallies.antt', '(radial_at b 0).spot_blank 1)', '(radial_at b 0).spot_blank 0)'),
        ('crates/ask/src/tallies.rt', 'spot_blank 1)', 'spot_blank 0)'),
        ('crates/ask/src/tallies.rt', 'Radial::SPOT_BLANK) == 1', 'Radial::SPOT_BLANK) == 0'),
        ('crates/ask/proofs/tallies/blank/Answers.antt', 'eqb c.u32_at.result 1', 'eqb c.u32_at.result 0'),
        ('crates/ask/proofs/Tallying.antt', 'spot_blank 1)', 'spot_blank 0)'),
    ],
    # hope of a cut by its size mask (document 02, #110)
    'hope_by_size_mask': [
        ('crates/reading/specs/Step.antt', 'hope_after_cut r = ltb 0 r.moments_mask', 'hope_after_cut r = ltb 0 r.size_mask'),
        ('crates/reading/src/step.rt', '0 < r.moments_mask', '0 < r.size_mask'),
    ],
    # 40 told at the file's first byte (document 02, #110)
    'forty_at_zero': [
        ('crates/reading/specs/Step.antt', 'hoping false at (Took n) = Refused 40 at', 'hoping false at (Took n) = Refused 40 0'),
        ('crates/reading/src/step.rt', 'Step::Refused(40, at)', 'Step::Refused(40, 0)'),
        ('crates/reading/proofs/Run.antt', 'hoping h at s ≡ Refused 40 at →', 'hoping h at s ≡ Refused 40 0 →'),
        ('crates/reading/proofs/Run.antt', '(took m e) = refused 40 at (', '(took m e) = refused 40 0 ('),
        ('crates/reading/proofs/Exactly.antt', '→ Refuses f w 40 w.at', '→ Refuses f w 40 0'),
        ('crates/reading/proofs/Exactly.antt', 'refused-same 40 w.at n p', 'refused-same 40 0 n p'),
        ('crates/reading/specs/Exactly.antt', 'IsRefused f 40 (stop f).at', 'IsRefused f 40 0'),
    ],
    # the types that a radial has shown counted again (document 02, #110)
    'seen_counted_again': [
        ('crates/walk/specs/Hope.antt', 'w.present.sizes w.rest.seen', 'w.present.sizes 0'),
        ('crates/walk/src/hope.rt', 'w.rest.seen,', '0,'),
    ],
    # one radial for each later cut (document 02, #110)
    'one_radial_for_a_cut': [
        ('crates/coming/specs/Radials.antt', '2 * (cuts - cut)', '1 * (cuts - cut)'),
        ('crates/coming/src/lib.rt', '65536 - 2 * later', '65536 - 1 * later'),
        ('crates/coming/src/lib.rt', 'if 32768 < later', 'if 65536 < later'),
        ('crates/coming/proofs/Radials.antt', '2 * (cuts - cut)', '1 * (cuts - cut)'),
    ],
    # a full cut let open (document 02, #110)
    'full_cut_let_open': [
        ('crates/coming/specs/Radials.antt', 'ltb in_cut most_radials', 'leb in_cut most_radials'),
        ('crates/coming/specs/Radials.antt', 'ltb number most_radials', 'leb number most_radials'),
        ('crates/coming/src/lib.rt', 'number < 1000 &&', 'number <= 1000 &&'),
    ],
    # a decoded row that goes on behind the row let through (document 02, #112)
    'longer_let_through': [
        ('crates/decoded/specs/Decoded.antt', f'{SAME_KINDS} && {SAME_HUNDREDTHS}', f'{ENOUGH_KINDS} && {ENOUGH_HUNDREDTHS}'),
        ('crates/decoded/specs/Decoded.antt', 'eqb, ℤ', 'eqb, leb, ℤ'),
        ('crates/decoded/src/lib.rt', 'kinds.len() == n', 'n <= kinds.len()'),
        ('crates/decoded/src/lib.rt', 'hundredths.len() == n', 'n <= hundredths.len()'),
        (CHECKED, 'length k ≡ length codes', 'length codes ≤ length k'),
        (CHECKED, 'length h ≡ length codes', 'length codes ≤ length h'),
        (CHECKED, 'eqb-true (length k) (length codes)', 'leb-true (length codes) (length k)'),
        (CHECKED, 'eqb-true (length h) (length codes)', 'leb-true (length codes) (length h)'),
        (CHECKED, 'eq-eqb (length k) (length codes)', 'le-leb (length codes) (length k)'),
        (CHECKED, 'eq-eqb (length h) (length codes)', 'le-leb (length codes) (length h)'),
        (CHECKED, SAME_KINDS, ENOUGH_KINDS),
        (CHECKED, SAME_HUNDREDTHS, ENOUGH_HUNDREDTHS),
        (CHECKED, 'use borrow.Author.Tests.{eq-eqb, eqb-true}', 'use borrow.Author.Tests.{eq-eqb, eqb-true, le-leb, leb-true}'),
        (CHECKED, 'use lib.Dec.{eqb}', 'use lib.Dec.{eqb, leb}'),
        (CHECKED, 'use Prim.Native.Nat.{ℕ}', 'use Prim.Native.Nat.{ℕ, ◌≤◌}'),
    ],
    # 31 for a radial that is not there (document 02, #112)
    'thirty_one_for_thirty': [
        ('crates/decoded/specs/Decoded.antt', 'check_told f NoRadial k h = refused 30 0', 'check_told f NoRadial k h = refused 31 0'),
        ('crates/decoded/src/lib.rt', 'Where::NoRadial => Err(Refusal::NoRadial)', 'Where::NoRadial => Err(Refusal::NoMoment)'),
    ],
    # the two clauses of number 23 told for each other (document 02, #104)
    'clauses_of_23': [
        ('crates/rules/specs/Masks.antt', f'{ONE_BYTE} ∷ {TWO_BYTES} ∷ []', f'{TWO_BYTES} ∷ {ONE_BYTE} ∷ []'),
        ('crates/rules/src/masks.rt', 'if x == 2 { 0 } else { 2 }', 'if x == 2 { 0 } else { 1 }'),
        ('crates/rules/src/masks.rt', 'if x == 1 { 0 } else { 1 }', 'if x == 1 { 0 } else { 2 }'),
        ('crates/rules/proofs/Numbers.antt', '(cond b true (is 1 (short bin)) && cond b (is 2 (short bin)) true)',
         '(cond b (is 2 (short bin)) true && cond b true (is 1 (short bin)))'),
        ('crates/rules/proofs/Numbers.antt', '    go true = refl\n    go false = sym (and-true (is 1 (short bin)))',
         '    go true = sym (and-true (is 2 (short bin)))\n    go false = refl'),
    ],
    # bin length cited with four bytes (document 02, #104)
    'bin_length_of_four': [
        ('crates/moment/specs/Moment.antt', 'rule 12 2 23', 'rule 12 4 23'),
        ('crates/moment/src/lib.rt', 'Self::BIN_LENGTH as u8,\n            2,', 'Self::BIN_LENGTH as u8,\n            4,'),
        ('crates/old/proofs/Moments.antt', 'rule 12 2 23', 'rule 12 4 23'),
        ('crates/citing/proofs/Whys.antt', '(inl refl, (inr refl, tt))', '(inr refl, (inr refl, tt))'),
    ],
    # the place of the scale cited for the offset (document 02, #104)
    'scale_for_offset': [
        ('crates/citing/specs/Answers.antt', 'offset = field_at f (m + 8) 4', 'offset = field_at f (m + 4) 4'),
        ('crates/citing/src/answers.rt', 'm + Moment::OFFSET', 'm + Moment::SCALE'),
    ],
    # trailing bytes cited at the trailing bytes (document 02, #104)
    'trailing_bytes_cited': [
        ('crates/citing/specs/Refusals.antt', 'block due.Radial w.count.whole 0 w.present.start', 'block due.Radial w.count.whole 0 w.at'),
        ('crates/citing/src/refusals.rt', 'named(Due::Radial, whole, 0, start)', 'named(Due::Radial, whole, 0, at)'),
        ('crates/citing/src/refusals.rt', 'four(file, w.present.start)', 'four(file, at)'),
        ('crates/citing/proofs/Whys.antt', 'f w).place ≡ w.present.start', 'f w).place ≡ w.at'),
        ('crates/citing/proofs/refusals/file/Answers.antt', 'let q : w.present.start ≡', 'let q : w.at ≡'),
    ],
    # the types seen not cleared at a new radial (number 20)
    'seen_not_cleared': [
        ('crates/walk/specs/After.antt', 'left = r.length_of_data; seen = 0;', 'left = r.length_of_data; seen = w.rest.seen;'),
        ('crates/walk/src/after.rt', 'left: r.length_of_data as usize,\n            seen: 0,',
         'left: r.length_of_data as usize,\n            seen: w.rest.seen,'),
    ],
    # the resolution of an old radial at byte 72 (document 02, #102)
    'resolution_at_72': [
        (OLD, 'resolution = le 2 b 70', 'resolution = le 2 b 72'),
        (OLD_RECORD, 'RESOLUTION: usize = 70', 'RESOLUTION: usize = 72'),
    ],
    # the codes of width before those of velocity (document 02, #102)
    'width_before_velocity': [
        *swapped(HEADERS, 'old_header + o.reflectivity\n', 'old_header + o.reflectivity + o.doppler\n'),
        *swapped(OLD_HEADERS, 'DATA + o.reflectivity as usize,', 'DATA + o.reflectivity as usize + o.doppler as usize,'),
    ],
    # 52 asked before 62 (document 02, #102)
    'counts_before_time': [
        *swapped(OLD, '62 (time_clauses o.day o.milliseconds)', '52 (counts_clauses o.reflectivity o.doppler)'),
        *swapped(OLD_RECORD, 'clock::time_breaks(self.day, self.milliseconds),\n            62,',
                 'counts_breaks(self.reflectivity, self.doppler),\n            52,'),
        *swapped('crates/old/proofs/record/OldRadial/check/Answers.antt', 'c.time_breaks', 'c.counts_breaks'),
        *swapped('crates/old/proofs/Accepted.antt', '(rules-hold o ok).1.0', '(rules-hold o ok).1.1.0'),
        ('crates/shelf/proofs/Kept.antt', '(rules-hold o fine).1.0', '(rules-hold o fine).1.1.0'),
        ('crates/shelf/proofs/Growing.antt', '(rules-hold (old_at A at) e).1.1.0', '(rules-hold (old_at A at) e).1.0'),
        ('crates/shelf/proofs/lay/lay_over/Answers.antt', '∙ t))).1.1.0', '∙ t))).1.0'),
        *swapped('crates/shelf/proofs/Ordering.antt', 'in-time o h.time', 'well-counted o h.counts'),
    ],
    # an old radial's own number told at the end of the new volume (document 02, #102)
    'own_number_at_the_end': [
        ('crates/shelf/specs/Import.antt', BROKEN + AT, BROKEN + AT_END),
        ('crates/shelf/specs/Settled.antt', BROKEN + AT, BROKEN + AT_END),
        ('crates/shelf/src/settle.rt', 'refused(c.number, at, w)', 'refused(c.number, w.at, w)'),
        ('crates/shelf/proofs/settle/settle_over/Answers.antt', 'Refused b.number at;', 'Refused b.number p.walk.at;'),
        ('crates/shelf/proofs/Over.antt', 'Refused b.number at ≡ Taken', 'Refused b.number o.walk.at ≡ Taken'),
    ],
    # codes raised by 4, with the offsets (document 02, #102): every value is kept
    'raised_by_four': [
        (CODES, 'v (v + 3)', 'v (v + 4)'),
        (CODES, 'offset = 69', 'offset = 70'),
        (CODES, 'offset = 132', 'offset = 133'),
        ('crates/old/src/codes.rt', 'v as u16 + 3', 'v as u16 + 4'),
        ('crates/old/src/codes.rt', 'offset: 69', 'offset: 70'),
        ('crates/old/src/codes.rt', 'offset: 132', 'offset: 133'),
        (KEPT, 'v + 3', 'v + 4'),
        (KEPT, 'w + 5', 'w + 6'),
        (KEPT, 'offset = 132', 'offset = 133'),
        ('crates/old/proofs/Fitting.antt', '≤ 132', '≤ 133'),
        ('crates/old/proofs/Fitting.antt', '132 ≤', '133 ≤'),
    ],
    # velocity of scale 2 whatever the resolution (document 02, #102)
    'velocity_in_halves': [
        (CODES, 'scale = cond (eqb resolution 4) 1 2', 'scale = cond (eqb resolution 4) 2 2'),
        ('crates/old/src/codes.rt', 'if resolution == 4 { 1 } else { 2 }', 'if resolution == 4 { 2 } else { 2 }'),
        ('crates/old/proofs/Fitting.antt', 'cond b 1 2', 'cond b 2 2'),
        (KEPT, 'scale = cond b 1 2', 'scale = cond b 2 2'),
        (KEPT, 'scale = 1', 'scale = 2'),
    ],
    # flags of 1 in the header of a moment (document 02, #102)
    'flags_of_one': [
        (HEADERS, 'flags = 0', 'flags = 1'),
        (OLD_HEADERS, 'flags: 0', 'flags: 1'),
    ],
    # 86,400 seconds for each day, day 1 among them (document 02, #102)
    'days_from_zero': [
        ('crates/old/specs/Clock.antt', '86400 * (day - 1) +', '86400 * day +'),
        ('crates/old/src/clock.rt', '(day as u64).saturating_sub(1)', '(day as u64)'),
    ],
    # a last radial kept although it is alone in its cut (document 02, #107)
    'lone_radial_kept': [
        ('crates/mend/specs/Kept.antt', 'cond (eqb s.cut before) (s ∷ []) []', 's ∷ []'),
        ('crates/mend/specs/Kept.antt', 'cond (eqb s.cut (cut_of before)) (Some s) before', 'Some s'),
        ('crates/mend/src/keep.rt', 'return newest;\n    }\n    before', 'return newest;\n    }\n    newest'),
        (KEPT_OF, f'{NEWEST_IF}(eq-eqb s.cut (cut_of a.before) (c.if-s-cut_of.true ∙ c.cut_of.ensures))', ''),
        (KEPT_OF, f'{NEWEST_IF}(ne_eqb s.cut (cut_of a.before) (λ e. c.if-s-cut_of.false (e ∙ sym c.cut_of.ensures)))', ''),
        (KEEPING, 'from_one before s [] = go (eqb s.cut (cut_of before))', 'from_one before s [] = refl'),
        (KEEPING, '≡ cond (eqb l.cut (last_cut b ss)) (ss ++ (l ∷ [])) ss', '≡ ss ++ (l ∷ [])'),
        (KEEPING, 'kept-join b ss l [] ∙ go (eqb l.cut (last_cut b ss))', 'kept-join b ss l []'),
        (KEEPING, f'{KEPT_IF}(eq-eqb l.cut (last_cut b ss) e)', ''),
        (KEEPING, f'{KEPT_IF}(ne_eqb l.cut (last_cut b ss) n)', ''),
        (KEEPING, '≡ ss\nkept-without', '≡ ss ++ (l ∷ [])\nkept-without'),
        (KEEPING, 'kept-first b (s ∷ []) = go (eqb s.cut b)', 'kept-first b (s ∷ []) = ([], refl)'),
    ],
    # the closing state by the file's own cut number (document 02, #107): one that had closed an earlier cut stays
    'closed_as_in_the_file': [
        (MENDED, 'closing (task_block f).scan_type s.cut s.cut', 'closing (task_block f).scan_type (cut_number f) s.cut'),
        (LAY, 'SCAN_TYPE), cut, cut)', 'SCAN_TYPE), cut_number(file), cut)'),
        (LAST_STATE, 'ap (λ (scan : ℕ). closing scan s.cut s.cut)', 'ap₂ (λ (scan cuts : ℕ). closing scan cuts s.cut)'),
        (LAST_STATE, '164 (omega arith)))', '164 (omega arith))) c.cut_number.ensures'),
        (LAST_STATE, '{sym, ap, ◌∙◌}', '{sym, ap₂, ◌∙◌}'),
        (VIEW, '(cuts_of b) (cuts_of b)', 'b.task.cut_number (cuts_of b)'),
        (CLOSED, 'closing-small scan k k', 'closing-small scan b.task.cut_number k'),
        (MEND_BYTES, 'closing t.scan_type k k', 'closing t.scan_type t.cut_number k'),
        (MEND_BYTES, 'closing (task_block f).scan_type k k', 'closing (task_block f).scan_type (task_block f).cut_number k'),
        (MEND_BYTES, 'ap₂ (λ (x n : ℕ). closing x n k) (ap (λ (t : Task). t.scan_type) (sym (task-is f v))) number',
         'ap (λ (t : Task). closing t.scan_type t.cut_number k) (sym (task-is f v))'),
        (PAIRED, '(cuts_of v.begun) (cuts_of v.begun)', 'v.begun.task.cut_number (cuts_of v.begun)'),
        (PAIRED, '(cuts_of b) (cuts_of b)', 'b.task.cut_number (cuts_of b)'),
        (WHOLE, 'closing v.begun.task.scan_type k k', 'closing v.begun.task.scan_type v.begun.task.cut_number k'),
        (WHOLE, 'closing t.scan_type k k', 'closing t.scan_type t.cut_number k'),
        (REPORTS, 'closing-small (task_block f).scan_type s.cut', 'closing-small (task_block f).scan_type (cut_number f)'),
        (GROWING, 'closing t.scan_type s.cut s.cut', 'closing t.scan_type t.cut_number s.cut'),
    ],
    # the blocks of the dropped cuts left in (document 02, #107)
    'dropped_cuts_left_in': [
        (MENDED, KEPT_CUT, OWN_CUTS),
        (LAY, '- behind_cut s.cut }', '- behind_cut (cut_number file.now) }'),
        (LAY, 'behind_cut(s.cut)', 'behind_cut(cut_number(file))'),
        (LAID, 'c.behind_cut-front.ensures', '(c.behind_cut-front.ensures ∙ ap (λ (n : ℕ). behind_cut n) c.cut_number.ensures)'),
        (PIECES, KEPT_CUT, OWN_CUTS),
        (REPORTS, KEPT_CUT, OWN_CUTS),
        ('crates/mend/proofs/Making.antt', KEPT_CUT, OWN_CUTS),
        ('crates/mend/proofs/Making.antt', '{behind_cut, last_state', '{behind_cut, cut_number, last_state'),
        ('crates/mend/proofs/Handed.antt', KEPT_CUT, OWN_CUTS),
        (GROWING, 'to-dropped = p.to-dropped', 'to-dropped = p.to-dropped ∙ sym (ap (λ (t : Task). behind_cut t.cut_number) task-same)'),
        (GROWING, 'to-radials = p.to-radials', 'to-radials = ap (λ (t : Task). behind_cut t.cut_number + length p.c) task-same ∙ p.to-radials'),
        (GROWING, KEPT_CUT, 'behind_cut t.cut_number'),
    ],
    # what a field held told as what it holds, and the other way round (document 02, #107)
    'old_for_new': [
        (MENDED, 'old = old; new = new', 'old = new; new = old'),
        (REPORT, '        old,\n        new,', '        old: new,\n        new: old,'),
        (REPORTS, 'old = old; new = new', 'old = new; new = old'),
        (REPORTS, 'old = le 4 f place; new = le 4 g written', 'old = le 4 g written; new = le 4 f place'),
    ],
    # the dropped stretch told from the start of the last radial that is kept (document 02, #107)
    'dropped_from_the_last_kept': [
        (MENDED, 'from = s.end', 'from = s.start'),
        (REPORT, 'from: s.end', 'from: s.start'),
        ('crates/mend/proofs/report/report_of/Answers.antt', 'from = s.end', 'from = s.start'),
    ],
    # bit t for type t, in the choice of the moments and in the cuts' masks (document 02, #111)
    'wanted_by_bit_t': [
        (WANTED, 'bit wanted', 'bit (wanted / 2)'),
        (WANTED, '{ℕ, ◌+◌, ', '{ℕ, ◌+◌, ◌/◌, '),
        (PICKED, OWN_MASK, 'bit_and (le 8 b 84) (wanted / 2)'),
        (PICKED, '{ℕ, Bool, ', '{ℕ, ◌/◌, Bool, '),
        (PICK_KEEP, 'bit wanted', 'bit (wanted / 2)'),
        (PICK_KEEP, 'bit(wanted,', 'bit(wanted / 2,'),
        (PICK_KEEP, '{◌≡◌, ◌-◌, ', '{◌≡◌, ◌-◌, ◌/◌, '),
        (PICK_LAY, '& wanted', '& (wanted / 2)'),
        ('crates/pick/proofs/keep/wants/Answers.antt', 'bit a.wanted', 'bit (a.wanted / 2)'),
        ('crates/pick/proofs/keep/wants/Answers.antt', 'use Rattle.rules.specs.Masks', 'use Prim.Native.Nat.{◌/◌}\nuse Rattle.rules.specs.Masks'),
        (WANTING, 'bit wanted', 'bit (wanted / 2)'),
        (WANTING, '◌+◌, ◌-◌', '◌+◌, ◌-◌, ◌/◌'),
        (LAYING, OWN_MASK, 'bit_and (le 8 b 84) (wanted / 2)'),
        (LAYING, MASK_THERE, 'bit_and (le 8 f (at + 84)) (wanted / 2)'),
        (LAYING, MASK, 'bit_and m (wanted / 2)'),
        (LAYING, '◌+◌, ◌%◌', '◌+◌, ◌/◌, ◌%◌'),
        (TURNS, OWN_MASK, 'bit_and (le 8 b 84) (wanted / 2)'),
        (TURNS, '◌-◌, ◌*◌', '◌-◌, ◌*◌, ◌/◌'),
        (LAY_CUT, 'bit_and m a.wanted', 'bit_and m (a.wanted / 2)'),
        (LAY_CUT, 'Nat.{ℕ, ◌+◌}', 'Nat.{ℕ, ◌+◌, ◌/◌}'),
    ],
    # the cuts' masks left as they were (document 02, #111)
    'mask_left': [
        (PICKED, OWN_MASK, 'le 8 b 84'),
        (PICK_LAY, ' & wanted', ''),
        (LAYING, OWN_MASK, 'le 8 b 84'),
        (LAYING, MASK_THERE, 'le 8 f (at + 84)'),
        (LAYING, MASK, 'm'),
        (TURNS, OWN_MASK, 'le 8 b 84'),
        (LAY_CUT, 'bit_and m a.wanted', 'm'),
    ],
    # length of data left as it was: the new one put where the moment number then is (document 02, #111)
    'length_left': [
        (WANTED, 'kept_bytes wanted b) 36', 'kept_bytes wanted b) 40'),
        (PICK_LAY, 'to + Radial::LENGTH_OF_DATA', 'to + Radial::MOMENT_NUMBER'),
        (LAYING, '36', '40'),
        ('crates/pick/proofs/lay/lay_radial/Answers.antt', '.to + 36', '.to + 40'),
    ],
    # a kept moment's data without its header (document 02, #111)
    'data_without_header': [
        (WANTED, 'take (moment_size + (moment_at b at).length) (drop at b)', 'data_at b at'),
        (WANTED, '{moments_of}', '{moments_of, data_at}'),
        (PICK_KEEP, '≡ take (end - at) (drop at b.now)', '≡ data_at b.now at'),
        (PICK_KEEP, 'ghost use Rattle.pick', 'ghost use Rattle.moments.specs.Moments.{data_at};\nghost use Rattle.pick'),
        (PICK_KEEP, 'reading::own(\n        b,\n        Stretch {\n            start: at,\n            end,\n            cut: 0,\n        },\n    )',
         'moments::data(b, at)'),
        (WANTING, 'm ≡ take (q.at - at) (drop at b) →', 'm ≡ data_at b at →'),
        (WANTING, '(ap (λ (x : ℕ). take x (drop at b)) l ∙ sym d)', '(sym d)'),
        (WANTING, '  unfolding run\n  run_more', '  unfolding run data_at\n  run_more'),
        (WANTING, 'length-take (32 + (moment_at b at).length) (drop at b)', 'length-take (moment_at b at).length (drop (at + 32) b)'),
        (WANTING, 'length-drop at b', 'length-drop (at + 32) b'),
        (WANTING, 'ahead_of, first_of', 'ahead_of, data_at, first_of'),
    ],
    # the last radial that would have no moment left told, and not the first (document 02, #111)
    'last_empty_told': [
        (PICKED, OR_ELSE, ''),
        (PICKED, '-- the first of some radials', OR_ELSE + '-- the first of some radials'),
        (PICKED, FIRST_EMPTY, f'or_else (first_empty wanted f ss) ({THIS_EMPTY})'),
        (PICK_PLAN, 'or_else found (cond (eqb moments 0) (Some s) None)', 'cond (eqb moments 0) (Some s) found'),
        (PICK_PLAN, '    match found {\n        Some(_) => found,\n        None => {\n', '    {\n        {\n'),
        (EMPTY, RETURNS_FOUND, ''),
        (EMPTY, f'sym ({FOUND}c.in-None.is\n    ∙ ', 'sym ('),
        (EMPTY, f'    let e = c.in-None.is in\n    e\n    ∙ sym ({FOUND}e\n    ∙ ', '    sym ('),
        (EMPTY, '(Some a.s) None', '(Some a.s) a.found'),
        (EMPTY, 'returns-else-moments-eq0', 'returns'),
        (PLANNING, 'or_else empty (first_empty wanted f (trace (fuel f) f w))', 'or_else (first_empty wanted f (trace (fuel f) f w)) empty'),
        (PLANNING, 'or_else empty (first_empty wanted f (s ∷ ss))', 'or_else (first_empty wanted f (s ∷ ss)) empty'),
        (PLANNING, '  pub planned-none', OR_NONE + '  pub planned-none'),
        (PLANNING, 'first = refl })', 'first = or-none _ })'),
        (PLANNING, 'or_else (or_else empty (cond b (Some s) None)) rest ≡ or_else empty (cond b (Some s) rest)',
         'or_else rest (cond b (Some s) empty) ≡ or_else (or_else rest (cond b (Some s) None)) empty'),
        (PLANNING, 'None s rest = refl', 'empty s None = refl'),
        (PLANNING, '(Some u) s rest = refl', 'empty s (Some u) = refl'),
        (PLANNING, f'(or_else empty ({THIS_EMPTY}))', '(cond (empties wanted (bytes_of f s)) (Some s) empty)'),
        (PLANNING, 'or_else empty None', 'or_else None empty'),
        (PLANNING, 'sym (none empty) ∙ first', 'first'),
        (PICK_BYTES, '(cond t (Some s) x ≡ None) ↔ ((X → ⊥) × Y)\n', '(or_else x (cond t (Some s) None) ≡ None) ↔ ((X → ⊥) × Y)\nunfolding or_else\n'),
        (PICK_BYTES, 'neither true s x i r',
         f'neither t s (Some u) i r = (λ e. absurd {NOT_ZERO}, λ y. absurd (let q = r.1 y.1 in {NOT_ZERO}))\nneither true s None i r'),
        (PICK_BYTES, 'neither false s x i r', 'neither false s None i r'),
        (PICK_BYTES, 'first_empty, picked', 'first_empty, or_else, picked'),
        (PICK_AGAIN, 'first_empty, picked', 'first_empty, or_else, picked'),
        (PICK_AGAIN, '    -- so it is where s is the first', NONE_THEN + '    -- so it is where s is the first'),
        (PICK_AGAIN, '    unfolding first_empty nth\n', '    unfolding first_empty nth or_else\n'),
        (PICK_AGAIN, MEETS_CALL, f'go ({NONE_IN}) refl ({NONE_HERE}) refl e (meets bs s xs ys)'),
        (PICK_AGAIN, MEETS_GO, MEETS_LAST),
        (PICK_FIRST, EACH_GO, EACH_LAST),
        (PICK_FIRST, '  unfolding first_empty nth SomeKept radial_told\n', '  unfolding first_empty nth SomeKept radial_told or_else\n'),
        (PICK_FIRST, 'empty_in, first_empty}', 'empty_in, first_empty, or_else}'),
    ],
    # 60 told at the end of the radial (document 02, #111)
    'sixty_at_the_end': [
        (PICKED, '(Some s) = refused 60 s.start', '(Some s) = refused 60 s.end'),
        (PICKED, 'Empty s.start', 'Empty s.end'),
        (PICK_PLAN, 'Plan::Empty(s.start)', 'Plan::Empty(s.end)'),
        (PLANS, '(Empty s.start)', '(Empty s.end)'),
        (PLANS, 'place ≡ first.start', 'place ≡ first.end'),
    ],
    # a radial that would have no moment left let through (document 02, #111)
    'none_left_let_through': [
        (PICKED, FIRST_EMPTY, 'first_empty wanted f ss'),
        (PICK_PLAN, '(Some s) None', 'None None'),
        (PICK_PLAN, 'return Some(s);', 'return None;'),
        (EMPTY, '(Some a.s) None', 'None None'),
        (PLANNING, '(Some s) None', 'None None'),
        (PLANNING, 'or_else empty (cond b (Some s) rest)', 'or_else empty rest'),
        (PICK_AGAIN, MEETS_CALL, 'go (meets bs s xs ys)'),
        (PICK_AGAIN, MEETS_GO, MEETS_ON),
        ('crates/pick/proofs/Growing.antt', 'rw h.0 (go (empties wanted (bytes_of A x)) (first-same ss later s h.1) e)',
         'first-same ss later s h.1 e'),
        (PICK_FIRST, FIRST_GO, FIRST_NEVER),
    ],
    # a refused question shown as "unknown" (document 02, #109)
    'refused_as_unknown': [
        (ENGINE, 'kind_shown (refused number place) = number', 'kind_shown (refused number place) = 3'),
        (ENGINE_CODE, 'Err(refusal) => (refusal.number() % 256) as u8', 'Err(_) => 3'),
        ('crates/engine/proofs/kind/Answers.antt', 'rw (c.in-Err.is, c.number.ensures)', 'rw c.in-Err.is'),
        (FILLING, BELOW, BELOW_BY_ITSELF),
        (FILLING, 'below (stands-asked f n t i)', 'below f (where_is f n t) i'),
    ],
    # the number of a refusal shown as its hundredths (document 02, #109)
    'hundredths_of_refusal': [
        (ENGINE, 'hundredths_shown (refused number place) = pos 0', 'hundredths_shown (refused number place) = pos (number % 256)'),
        (ENGINE, '{ℕ, Bool', '{ℕ, ◌%◌, Bool'),
        (ENGINE_CODE, 'Err(_) => 0', 'Err(refusal) => (refusal.number() % 256) as i32'),
        (HUNDREDTHS, 'rw c.in-Err.is', 'rw (c.in-Err.is, c.number.ensures) (to_z_pos w32 (omega arith))'),
        (HUNDREDTHS, 'use mir.Facts.{to_z-of_z}', 'use native.Mathlib.Omega.{arith}\nuse mir.Facts.{to_z-of_z, to_z_pos}'),
        (FILLING, BELOW, BELOW_BY_ITSELF),
        (FILLING, 'below (stands-asked f n t i)', 'below f (where_is f n t) i'),
    ],
    # the place of the next radial read (document 02, #109)
    'next_place': [
        (FORMS, '8 * (n - 1)', '8 * n'),
        (SAID, '8 * (sequence - 1)', '8 * sequence'),
        (SAYS, 'cond (leb 1 n && leb n m) (Some (le 8 x (at + 8 * (n - 1))))', 'cond (leb 1 n && leb n m) (Some (le 8 x (at + 8 * n)))'),
        (SAYS, 'rw (le-leb 1 (suc m) (omega arith), add-zero at)', 'rw (le-leb 1 (suc m) (omega arith))'),
        (SAYS, 'at + 8 * (suc (suc n) - 1) ≡ at + 8 + 8 * (suc n - 1)', 'at + 8 * suc (suc n) ≡ at + 8 + 8 * suc n'),
    ],
    # the radials of an index found by the old form alone (document 02, #109)
    'old_form_alone': [
        (FORMS, 'radials_at x = counts_at x + 2 * cuts_said x', 'radials_at x = 1 + 2 * old_cuts x'),
        (SAID, '    if cuts == 0 {\n        3 + 2 * (le::u16_at(index, 1) as usize)\n    } else {\n        1 + 2 * (cuts as usize)\n    }\n', '    1 + 2 * (cuts as usize)\n'),
        (RADIALS_AT, RADIALS_NEW, ''),
        (RADIALS_AT, RADIALS_OLD, RADIALS_OLD_ALONE),
        (SAID_BACK, 'length (start cuts)\n\n', 'length (start cuts)\n    radials : radials_at (index_by start cuts ss) ≡ length (start cuts) + 2 * cuts\n\n'),
        (SAID_BACK, 'rw (told.is, told.at, number', 'rw (told.is, told.at, told.radials, number'),
        (SAID_BACK, '  unfolding cuts_said counts_at\n', '  unfolding cuts_said counts_at radials_at\n'),
        (SAID_BACK, '  unfolding cuts_said counts_at new_start le\n', '  unfolding cuts_said counts_at radials_at new_start le\n'),
        (SAID_BACK, 'at = rw (e, n) (sym (length-old cuts)) }', 'at = rw (e, n) (sym (length-old cuts)); radials = rw (e, length-old cuts) }'),
        (SAID_BACK, 'at = rw first-new (sym (length-new cuts));', 'at = rw first-new (sym (length-new cuts));\n        radials = rw (first-new, length-new cuts);'),
    ],
    # radial 0 answered as the first (document 02, #109)
    'radial_zero': [
        (FORMS, 'cond (leb 1 n && leb n (le 4 x (radials_at x)))', 'cond (leb n (le 4 x (radials_at x)))'),
        (SAID, ZERO_NOWHERE, ''),
        (SAID, '    Some(le::u64_at(index, at + 4 + 8', ZERO_FIRST + '    Some(le::u64_at(index, at + 4 + 8'),
        (FIND, 'u64_at', 'u64_at-2'),
        (FIND, FIND_NONE, FIND_FIRST),
        (FIND, ', le-leb 1 a.sequence (omega arith)', ''),
        (FIND, 'use native.Mathlib.Omega', 'use Prim.Native.Nat.{◌+◌, ◌-◌, ◌*◌}\nuse native.Mathlib.Omega'),
        (SAYS, 'cond (leb 1 n && leb n m)', 'cond (leb n m)'),
        (SAYS, 'rw (leb-suc-zero n, le-leb 1 (suc n) (omega arith))', 'rw (leb-suc-zero n)'),
        (SAYS, 'rw (leb-suc-suc (suc n) m, le-leb 1 (suc (suc n)) (omega arith), next) (rw (le-leb 1 (suc n) (omega arith)) at (at_place m ss x (at + 8) (suc n) rest))',
         'rw (leb-suc-suc (suc n) m, next) (at_place m ss x (at + 8) (suc n) rest)'),
    ],
    # 33 before 59 (document 02, #109)
    'room_before_index': [
        (ENGINE, 'cond (right_for f x) (cond (rooms n k h) (answered n) (refused 33 0)) (refused 59 0)',
         'cond (rooms n k h) (cond (right_for f x) (answered n) (refused 59 0)) (refused 33 0)'),
        (ENGINE_CODE, INDEX_FIRST, ''),
        (ENGINE_CODE, '    fill(file,', INDEX_FIRST + '    fill(file,'),
        (FILLING, 'not_right : right_for f x ≡ false →', 'not_right : right_for f x ≡ false → length qs ≤ length k → length qs ≤ length h →'),
        (FILLING, 'not_right e = record { answer = rw e; kinds = rw e; hundredths = rw e }',
         'not_right e lk lh = record { answer = rw (e, le-leb (length qs) (length k) lk, le-leb (length qs) (length h) lh); kinds = rw e; hundredths = rw e }'),
        (FILLING, 'no_room : right_for f x ≡ true → rooms', 'no_room : rooms'),
        (FILLING, 'no_room r e = record { answer = rw (r, e); kinds = rw (r, e); hundredths = rw (r, e) }',
         'no_room e = record { answer = rw e; kinds = rw (e, neither (right_for f x)); hundredths = rw (e, neither (right_for f x)) }'),
        (FILLING, '  no_room :', NEITHER + '  no_room :'),
        (FILLING, 'short : right_for f x ≡ true →', 'short :'),
        (FILLING, 'short r l = no_room r', 'short l = no_room'),
        (FILLING, 'Bool.{Bool, true, false}', 'Bool.{Bool, true, false, ◌&&◌}'),
        (MEANING, LIST_59, LIST_59_LAST),
        (LIST_ANSWER, NOT_RIGHT, NOT_RIGHT_LAST),
        (LIST_ANSWER, SHORT, SHORT_FIRST),
    ],
}


def below(crate):
    """A crate and those that it is built on, as crates.txt lists them: each with its line."""
    with open('crates.txt', encoding='utf-8') as file:
        lines = {found[1]: found for found in re.finditer(r'^(\w+)[^:\n]*:([^#\n]*).*$', file.read(), re.M)}
    found, due = {}, [crate]
    while due:
        name = due.pop()
        if name in lines and name not in found:
            found[name] = lines[name][0]
            due += lines[name][2].split()
    return found


def copied(to, crates=None):
    """Copies the repository, or these crates of it alone, each with its line."""
    shutil.rmtree(to, ignore_errors=True)
    for path in subprocess.run(['git', 'ls-files', '-z'], capture_output=True, text=True, check=True).stdout.split('\0')[:-1]:
        parts = path.split('/')
        if crates is None or parts[0] == 'crates' and parts[1] in crates:
            os.makedirs(os.path.join(to, os.path.dirname(path)), exist_ok=True)
            shutil.copy(path, os.path.join(to, path))
    if crates is not None:
        with open(os.path.join(to, 'crates.txt'), 'w', encoding='utf-8') as file:
            file.write('\n'.join(crates.values()) + '\n')


def slipped(changes):
    """The files that a slip changes, with its changes made, and the changes whose text does not stand there."""
    texts, strange = {}, []
    for path, old, new in changes:
        if path not in texts:
            texts[path] = ''
            if os.path.exists(path):
                with open(path, encoding='utf-8') as file:
                    texts[path] = file.read()
        if old in texts[path]:
            texts[path] = texts[path].replace(old, new)
        else:
            strange.append((path, old))
    return texts, strange


def fits(names):
    """Whether each text of the slips stands where it is to be changed; what does not is printed."""
    fine = True
    for name in names:
        for path, old in slipped(SLIPS[name])[1]:
            print(f'{name}: {path}: not found: {old!r}')
            fine = False
    return fine


def refused(name, folder):
    """The crates that refuse a slip, once it is made in a copy of the crates that the demands are built on."""
    texts, strange = slipped(SLIPS[name])
    for path, old in strange:
        sys.exit(f'{path}: not found: {old}')
    copied(folder, below('demands'))
    for path, text in texts.items():
        with open(os.path.join(folder, path), 'w', encoding='utf-8') as file:
            file.write(text)
    run = subprocess.run(['rt', 'all', 'check'], cwd=folder, stdout=subprocess.PIPE, stderr=subprocess.STDOUT, text=True)
    return re.findall(r'^(\w+): failed \(1\)$', run.stdout, re.M) if run.returncode == 1 else []


def main():
    names = sys.argv[2:] or list(SLIPS)
    if sys.argv[1] == '--fits':
        sys.exit(not fits(names))
    proved = []
    for name in names:
        by = refused(name, os.path.join(sys.argv[1], name))
        print(f'{name}: refused by {", ".join(by)}' if by else f'{name}: NOT refused', flush=True)
        proved += [] if by else [name]
    sys.exit(bool(proved))


if __name__ == '__main__':
    main()
