#!/usr/bin/env bash
# The house's checks notice what they must. Each fault is made in a copy, of the trace's page or of the sources, and the check must tell it:
# names that are gone and sentences that are wrong (trace.py), dead lemmas (dead_lemmas.py), uncalled functions and unused constants
# (uncalled.py), quotes that no document has (quoted.py), holes and axioms (plain.sh), files that belong to no crate (listed.sh), wrong
# versions that show nothing (refused.sh).
# shellcheck disable=SC2016
set -u
cd "$(dirname "$0")/.." || exit 2
work=$(mktemp -d)
trap 'rm -rf "$work"' EXIT
bad=0

failed() {
  echo "FAILED: $1"
  bad=1
}

# ---- the trace: what is changed, the words of sed that change it, then what the check must tell
refused() {
  sed -E "$2" docs/TRACE.md >"$work/page.md"
  if tests/trace.py "$work/page.md" >"$work/said"; then
    failed "the trace passes $1"
  elif ! grep -F -e "$3" "$work/said" >/dev/null; then
    failed "the trace does not tell of $1: $3"
  fi
}

refused "a definition that is gone" '0,/`form_of`/s//`form_off`/' 'no definition form_off'
refused "a theorem that is gone" '0,/`demand_3`/s//`demand_4`/' 'no theorem demand_4'
refused "a wrong version that is gone" '0,/`number\/long_form`/s//`number\/longer_form`/' 'no wrong version number/longer_form'
refused "a test that is gone" '0,/`worked_marks`/s//`worked_mark`/' 'no test worked_mark'
refused "a file that is gone" '0,/\(site\/specs\/Items.antt\)/s//(site\/specs\/Item.antt)/' 'no file site/specs/Item.antt'
refused "a name that is only a bound variable" '0,/`past_longest` `accepted_short` \(rules/s//`at` `accepted_short` (rules/' 'no theorem at in rules'
refused "a name that only a comment has" '0,/`check_rules` \(rules\/specs\/RuleFile.antt\)/s//`reading` (rules\/specs\/RuleFile.antt)/' 'no definition reading'
refused "a sentence that nothing holds" '/^- theorem .demand_3. \(worlds.proofs.Demand.antt\)$/d' 'nothing holds: Where they differ'
refused "an operation that is left out" '/^### dzy_ask/d' "differ from the face: ['dzy_ask']"
if [ -d "${DOCUMENTS:-../shared}" ]; then
  refused "a quoted sentence with one word changed" 's/^> Only the shortest form/> Only the longest form/' 'not in this order: Only the longest'
  refused "a sentence left out with what holds it" '/^> Dropped means 1 or 2/,/^> Counts/{/^> Counts/!d}' 'left out before it: Dropped means 1 or 2.'
  refused "a demand's sentence left out" '/^> A fact is dropped exactly/,/^> The kept/{/^> The kept/!d}' 'left out before it: A fact is dropped exactly'
  refused "the last sentence left out" 's/^> Facts about inclusion are proved once/> /' "left out before it: Facts about inclusion"
  refused "a sentence that no document has" 's/^> Dropped means 1 or 2\.$/& Kept means 0./' 'not in this order: Dropped means 1 or 2. Kept'
  refused "a row of a table with another number" 's/^> \| 9 \|/> | 8 |/' 'not in this order: 8 a lent output'
  refused "a quote in a section of our own" 's/^Readers, writers and functions over records/> &/' "quotes under 'Below the face'"
  DOCUMENTS=$work tests/trace.py >"$work/said" && failed "the trace passes a folder without the documents"
else
  tools/not-run.sh "the trace's sentences against the customer's documents" "the documents are not in this repository, and DOCUMENTS names no folder with them"
fi
DOCUMENTS=$work/none tests/trace.py | grep '^the sentences were not held to the documents' >/dev/null || failed "a clone that stands alone is not told of"
tests/trace.py >/dev/null || failed "the trace refuses the page itself"

# ---- what C calls, in a copy of the repository: what is changed, the words of sed that change it, then what the check must tell
mkdir "$work/copy"
tar -c --exclude=./.git --exclude=./target --exclude='./crates/*/out' . | tar -x -C "$work/copy"
to_c=crates/dzyunagor_c/src/lib.rt
changed() {
  cp "$to_c" "$work/copy/$to_c"
  sed -E -i "$2" "$work/copy/$to_c"
  tests/trace.py docs/TRACE.md "$work/copy" | grep -F -e "$3" >/dev/null || failed "the trace does not tell of $1: $3"
  cp "$to_c" "$work/copy/$to_c"
}
tests/trace.py docs/TRACE.md "$work/copy" >/dev/null || failed "the trace refuses a copy"
changed "a weaker contract for C" '0,/ensures \{/s//ensures { true \&\&/' 'has not the contract of the library'
changed "a contract for C that is gone" '0,/ensures \{.*\}/s///' 'has not the contract of the library'
changed "a function that C cannot call" '0,/pub extern "C" fn dzy_ask/s//pub fn dzy_ask/' "differ from the face: ['dzy_ask']"

# ---- the sources: a file of the copy and what is added at its end, then what the check must tell
# a function's answers
answers=crates/rules/proofs/check/rules_end/Answers.antt
told() {
  local check=$1 file=$2 added=$3 wanted=$4
  cp "$work/copy/$file" "$work/before"
  printf '%b' "$added" >>"$work/copy/$file"
  "tests/$check" "$work/copy" | grep -F -e "$wanted" >/dev/null || failed "$check does not tell: $wanted"
  cp "$work/before" "$work/copy/$file"
}

# `mark_of`, `MOST`, `new` and `write_fact` are names that others use; `step_aside` is used by itself and by what nothing uses
told dead_lemmas.py crates/number/proofs/Laws.antt '\npub mark_of : ℕ → ℕ\nmark_of n = n\n' ': nothing uses mark_of'
told dead_lemmas.py crates/site/proofs/Order.antt '\nstep_aside : ℕ → ℕ\nstep_aside n = step_aside n\n\nfollows_it : ℕ → ℕ\nfollows_it n = step_aside n\n' ': nothing uses step_aside'
told dead_lemmas.py crates/site/specs/Kinds.antt '\npub record Pair : Type 0 where\n  pub nowhere_asked : ℕ\n' ': nothing uses nowhere_asked'
told dead_lemmas.py crates/number/specs/Answer.antt '\npub ◌aside◌ : ℕ → ℕ → ℕ\n◌aside◌ m n = m\n' ': nothing uses ◌aside◌'
told dead_lemmas.py crates/site/proofs/Order.antt '\npub ruleset aside = (refl)\n' ': nothing uses aside'
told dead_lemmas.py "$answers" '\npub aside : ℕ → ℕ\naside n = n\n\npub returns-aside : ℕ → ℕ\nreturns-aside n = aside n\n' ': nothing uses aside'
told dead_lemmas.py "$answers" '\npub returns-aside : ℕ → ℕ\nreturns-aside n = n\n' ': nothing uses returns-aside'
told uncalled.py crates/site/src/nodes.rt '\nimpl Role {\n    pub const MOST: u32 = 32;\n}\n' ': nothing uses Role::MOST'
told uncalled.py crates/site/src/nodes.rt '\nimpl Declared {\n    pub fn new(roles: u32) -> Self {\n        Self { concepts: 0, roles }\n    }\n}\n' ': nothing calls Declared::new'
told uncalled.py crates/site/src/nodes.rt '\nimpl Concept {\n    pub fn halve(x: u32) -> u32 {\n        if x < 2 {\n            return x;\n        }\n        Concept::halve(x / 2)\n    }\n}\n' ': nothing calls Concept::halve'
told uncalled.py crates/rule/src/read.rt '\nfn write_fact(x: u32) -> u32 {\n    x\n}\n' ': nothing calls write_fact'
told uncalled.py crates/rule/src/read.rt '\nconst ROOM: u32 = 1;\n' ': nothing uses ROOM'
told uncalled.py crates/rule/src/read.rt '\nstruct Aside<F> {\n    f: F,\n}\n\nimpl<F: Fn(u32) -> u32> Aside<F> {\n    pub const fn aside(self) -> u32 {\n        self.aside_too()\n    }\n}\n' ': nothing calls Aside::aside'
# a clause and a tactic call nothing
told uncalled.py crates/rule/src/read.rt '\nfn aside(x: u32) -> u32 {\n    x\n}\n\n#[tactic(auto, using(crate::proofs::Aside::aside))]\nfn beside(x: u32) -> u32\n    ensures same { result ≡ aside (x) }\n{\n    x\n}\n' ': nothing calls aside'

# what is cited for a proof by an attribute is used, and only what it names
alive() {
  cp "$work/copy/$1" "$work/before"
  cp "$work/copy/$2" "$work/before2"
  printf '%b' "$3" >>"$work/copy/$1"
  printf '%b' "$4" >>"$work/copy/$2"
  tests/dead_lemmas.py "$work/copy" | grep -F -e ": nothing uses $5" >/dev/null && failed "dead_lemmas.py tells of $5, which is cited"
  cp "$work/before" "$work/copy/$1"
  cp "$work/before2" "$work/copy/$2"
}
alive crates/site/proofs/Order.antt crates/site/src/nodes.rt '\npub ruleset aside = (refl)\n' '\n#[tactic(auto, using(crate::proofs::Order::aside))]\nfn beside(x: u32) -> u32 {\n    x\n}\n' aside
alive crates/site/proofs/Order.antt crates/site/src/nodes.rt '\npub aside : ℕ → Type 0\naside n = ℕ\n' '\nstruct Beside {\n    x: u32,\n    ghost small: { aside x },\n}\nghost use Rattle.site.proofs.Order.{aside};\n' aside

if [ -d "${DOCUMENTS:-../shared}" ]; then
  DOCUMENTS=$(realpath "${DOCUMENTS:-../shared}")
  export DOCUMENTS
  told quoted.py crates/site/specs/Kinds.antt '\n-- "a device that nobody owns"\n' 'not in the documents: a device that nobody owns'
  told quoted.py crates/site/src/nodes.rt '\n// "Only the shortest form .. may pass"\n' 'not in the documents: may pass'
fi

# ---- holes and axioms: a text, by itself in a crate, and whether it must be found
plain() {
  rm -rf "$work/crate"
  mkdir -p "$work/crate/crates/some"
  printf '%b' "$3" >"$work/crate/crates/some/$2"
  if tests/plain.sh "$work/crate" >/dev/null; then
    [ "$1" = passes ] || failed "plain.sh passes: $3"
  else
    [ "$1" = found ] || failed "plain.sh refuses: $3"
  fi
}

for hole in 'a = ?' 'a = ? -- later' 'a = ?later' 'a = f (?, b)' 'a = record { x = ?; y = 1 }' 'a = (?)' '?' 'a =\n    ?rest   -- is it?'; do
  plain found A.antt "$hole\n"
done
for axiom in 'axiom f : A' '  pub axiom f : A' 'use Prim.Axiom.{lem}' 'use Prim.Axiom as X' 'a = lem A' 'a = f (ac)' 'a = Prim.Axiom.ac'; do
  plain found A.antt "$axiom\n"
done
for code in 'extern "C" {' 'extern "C"\n{' 'unsafe extern "C" {' 'fn f()\n    ensures { ? }' 'fn f()\n    requires low {\n        x < ?x\n    }\n{' 'struct S {\n    ghost small: { ? },\n}' 'impl Model for S {\n    ghost view = { λ s. lem s };\n}'; do
  plain found a.rt "$code\n"
done
plain passes A.antt '-- is it there? by lem\na = b -- or here?\nlemma = places\n'
plain passes A.antt '{- is it there?\n  axiom f : A -}\na = b\n'
plain passes a.rt '// extern "C" { or ?\n#[unsafe(no_mangle)]\npub extern "C" fn f()\n    ensures { x ≡ y }\n{\n    g(b"what? // no")?;\n}\n'
mkdir -p "$work/crate/tests"
for shortcut in '--allow''-holes' '--allow''-axioms' '--allow''-empty' 'RT_AL''LOW_C=1'; do
  echo "$shortcut rt check" >"$work/crate/tests/quick.sh"
  tests/plain.sh "$work/crate" >/dev/null && failed "plain.sh passes a script with $shortcut"
done

# ---- files that belong to no crate, or stand where none may: the file, and what must be told
stray() {
  mkdir -p "$(dirname "$work/listed/$1")"
  touch "$work/listed/$1"
  tests/listed.sh "$work/listed" | grep -xF -e "$2: ${3:-$1}" >/dev/null || failed "listed.sh passes $1"
  rm -r "${work:?}/listed/$1"
}
mkdir -p "$work/listed/crates/low/src" "$work/listed/crates/low_c/src"
printf '# NAME: what\nlow:\nlow_c staticlib: low\n' >"$work/listed/crates.txt"
tests/listed.sh "$work/listed" || failed "listed.sh refuses a static library's line"
for file in bench/a.rt crates/low/a.rt crates/low/specs/a.rt crates/low/src/A.antt crates/low/data/A.antt target/A.antt; do
  stray "$file" "belongs to no listed crate"
done
for file in target/try/crates.txt crates/low/BUILD.bazel; do stray "$file" "must not be there"; done
stray crates/other/src/lib.rt "not listed in crates.txt" crates/other
rm -r "$work/listed/crates/other"
ln -s low "$work/listed/crates/low/src/link"
tests/listed.sh "$work/listed" >/dev/null && failed "listed.sh passes a link"
rm "$work/listed/crates/low/src/link"
rm -r "$work/listed/crates/low_c"
tests/listed.sh "$work/listed" >/dev/null && failed "listed.sh passes a listed crate that is not there"

# ---- the wrong versions: what rt ci says of two, and whether that passes
mkdir -p "$work/listed/crates/low/must-fail"
touch "$work/listed/crates/low/must-fail/one.edit" "$work/listed/crates/low/must-fail/other.edit"
said() {
  printf '%b\n' "$2" >"$work/ci.log"
  if tests/refused.sh "$work/ci.log" "$work/listed" >/dev/null; then
    [ "$1" = passes ] || failed "refused.sh passes: $2"
  else
    [ "$1" = fails ] || failed "refused.sh refuses: $2"
  fi
}
ok='rt: ok; handles allowed: none'
rest='every proof and must-fail edit was done in this run\n3 passed, 0 failed'
said passes "$ok; must-fail edits: 2 refused; $rest"
said fails "$ok; must-fail edits: 2 refused, 1 of them only by a limit; done in this run: 0 of the 3 proofs"
said fails "rt: must-fail low/one.edit: refused, as it must be (only because a proof file names what the edit took away, so this says little): a\n$ok; must-fail edits: 2 refused; $rest"
said passes "rt: must-fail low/one.edit: refused, as it must be: a\n$ok; must-fail edits: 2 refused; $rest"
said fails "$ok; must-fail edits: 2 refused, 1 bad; $rest"
said fails "$ok; must-fail edits: 1 refused, 1 of them only by a limit, 1 bad; $rest"
said fails "$ok; must-fail edits: 1 refused; $rest"
said fails "$ok; $rest"
said fails "rt: FAILED: low/one.edit\n2 passed, 1 failed"
said fails "$ok; must-fail edits: 2 refused; $rest\n$ok; must-fail edits: 2 refused; $rest"
said fails ""
exit "$bad"
