#!/bin/bash
# seeds.sh CRATE: what the check offers for each function of the crate, into GENERATED/CRATE/Rattle-CRATE-proofs/F: its goals (Goals.antt), the
# invariants and answers (InvariantsOffered.antt, AnswersOffered.antt). GENERATED is a folder beside the checkout, of the same name with
# .generated behind it; the crate's own proofs stay as they are.
folder=$PWD.generated/$1
mkdir -p "$folder"
(cd "crates/$1" && rt check --generated "$folder" > "$folder.log" 2>&1)
ls "$folder/Rattle-$1-proofs"
