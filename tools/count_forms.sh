#!/bin/bash
# Counts the places of the points of docs/DESIGN-PASS.md by the text of crates/*/src and of the proofs: tools/count_forms.sh [FOLDER]
cd "${1:-.}"
S=$(ls crates/*/src/*.rt)
n() { grep -hE "$1" $S | wc -l; }
echo "1a enum with a variant Refused(Refusal):            $(n '^\s*Refused\(Refusal\),')"
echo "1b field answer or good beside a value:             $(n '^\s*(pub )?(answer: (Reading|Written)|good: bool),')"
echo "1c refusal as a number (return N, number: N, != 0): $(n 'return [0-9]+;|number: [0-9]+|(number|fault|front|end) != 0')"
echo "1d kind, code, class, material, version compared:   $(n '\b(kind|code|class|material|version)[a-z_]*(\))? (==|!=|<=|<) ')"
echo "3  while loops:                                     $(n '^\s*(.[a-z]+: )?while ')"
echo "4a conversion functions by hand:                    $(n 'fn (wide|wider|widest)\(')"
echo "4b calls of them, and as casts:                     $(n '\b(wide|wider|widest)\(|\bas (u|i)(8|16|32|64|size)\b')"
echo "4c hand-written min, max, saturating difference:    $(n 'fn (less|lesser|greater)\(')"
echo "5a clauses with Valid:                              $(n '(requires|ensures).*\bValid\b')"
echo "5b clauses with AllowedMember, AllowedSurvey:       $(n '(requires|ensures).*\bAllowed(Member|Survey)\b')"
echo "5c functions with weights and distances:            $(n '^\s*weights: \[Kgf')"
echo "6a array fields with a count beside:                $(n '^\s*(pub )?[a-z]+: \[[A-Za-z0-9]+; [A-Z_]+\],')"
echo "6b tables as parallel arrays:                       $(n '^const (LOW|HIGH|SECTION_LOW|SECTION_HIGH)')"
echo "7  match or if on a letter or a step:               $(n 'match letter')"
echo "8  answers:                                         $(cat $(find crates/*/proofs -name Answers.antt) | grep -cE '^pub .* : goal\.')"
