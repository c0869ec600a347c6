{-# OPTIONS --safe #-}
-- A store at a page where no overlay is visible changes the guest's pages alone, and emits nothing.
module proofs.Stores where

open import Prelude
open import arrayvec.ArrayVec using (ArrayVec)
open import board-terms.declared.pages.Owner using (Owner)
open import board-terms.declared.refusal.Refusal using (Refusal)
open import core.Option using (option-map-or)
open import gpa-space.Space
open import law-processors.Theorems using (a-store-outside-overlays-changes-guest-pages-alone)
open import lib.ListN using (length; set)
open import synic-board.Effects using (Outcome; answered; refused)
open import synic-board.State using (State; space-of)
open import synic-board.Stores using (consumed-in; with-bytes)
open import synic-board.declared.event.Reply using (Reply)
open import proofs.Equality
open Owner

-- the overlays' own pages are the same

unchanged-own : (s : Space) (page : ℕ) (bytes : List ℕ) → visible s page ≡ None
  → Space.own (with-visible-page s page bytes) ≡ Space.own s
unchanged-own s page bytes e = by (visible s page) e
  where
  by : (o : Option ℕ) → o ≡ None → Space.own (option-map-or (λ overlay → record s { own = set (Space.own s) overlay bytes }) o
    record s { pages = set (Space.pages s) page bytes }) ≡ Space.own s
  by None e = refl

unless-refused : (s now : Space) (r : Option Refusal) → Space.own now ≡ Space.own s
  → Space.own (option-map-or (λ _ → s) r now) ≡ Space.own s
unless-refused s now None e = e
unless-refused s now (Some r) e = refl

own-stays : (s : Space) (address : ℕ) (bytes : List ℕ) → visible s (address / 4096) ≡ None
  → Space.own (after-store s address bytes) ≡ Space.own s
own-stays s address bytes e = unless-refused s _ (refusal-of s address (length bytes)) (unchanged-own s (address / 4096) _ e)

-- the outcome

Alone : State → Outcome → Set
Alone s o = fst o ≡ record s { pages = State.pages (fst o) } × snd (snd o) ≡ []

no-slot : (s now : State) (b : Bool) (o : Option ℕ) → o ≡ None → now ≡ record s { pages = State.pages now }
  → Alone s (answered Reply.Done (consumed-in now (if b then option-map-or overlay-owner o Guest else Nothing)))
no-slot s now true None e same = same , refl
no-slot s now false None e same = same , refl

if-not-refused : (s : State) (o : Outcome) (r : Option Refusal) → Alone s o → Alone s (option-map-or (refused s) r o)
if-not-refused s o None alone = alone
if-not-refused s o (Some r) alone = refl , refl

alone : a-store-outside-overlays-changes-guest-pages-alone
alone s address bytes e = if-not-refused s _ (refusal-of space address (length items))
  (no-slot s (with-bytes s address items) (ltb (address / 4096) (page-count space)) (visible space (address / 4096)) e
    (cong (λ own → record s { pages = Space.pages (after-store space address items) ; own = own }) (own-stays space address items e)))
  where
  space = space-of s
  items = ArrayVec.items bytes
