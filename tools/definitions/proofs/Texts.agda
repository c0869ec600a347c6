{-# OPTIONS --safe #-}
-- The laws of law_texts, by computation: Agda runs the whole text of each script.
module proofs.Texts where

open import Prelude using (refl)
open import law-texts.Theorems

empty : law-texts-empty
empty = refl

comment : law-texts-comment
comment = refl

size : law-texts-size
size = refl

long : law-texts-long
long = refl

form : law-texts-form
form = refl

sparse : law-texts-sparse
sparse = refl

sparse-size : law-texts-sparse-size
sparse-size = refl

no-pages : law-texts-no-pages
no-pages = refl

cut : law-texts-cut
cut = refl

replies : law-texts-replies
replies = refl
