{-# OPTIONS --safe #-}
-- The events of a local APIC alone, `take` and writes of EOI and TPR, change nothing else and emit nothing.
module proofs.Apics where

open import Prelude
open import board-terms.declared.refusal.Refusal using (NoSuchProcessor)
open import core.Option using (option-map-or)
open import lapic-core.Apic using (Apic; after-end; empty-apic; end-vector; next; take-vector; with-task-priority)
open import lapic-core.Vectors using (greatest)
open import law-processors.Elsewhere using (idle; idle-apic; is-apics-own; is-apics-register)
open import law-processors.Theorems using (a-local-apics-own-events-change-nothing-else)
open import lib.ListN using (set) renaming (get-or to get)
open import synic-board.Effects using (Outcome; at-processor; refused; unchanged)
open import synic-board.Interrupts using (taken-state; taken-at)
open import synic-board.Registers using (written; written-register)
open import synic-board.State using (State; apic-of; processors; with-apic)
open import synic-board.Step using (step)
open import synic-board.declared.event.Event using (Event)
open import synic-board.declared.event.Reply using (Reply)
open import synic-regs.Registers using (register-of)
open import synic-regs.declared.register.Register using (Register)
open import proofs.Equality
open Event
open Register

-- a replaced local APIC that is equal when it is idle leaves the idle state

same-idle : (xs : List Apic) (p : ℕ) (a : Apic) → idle-apic a ≡ idle-apic (get xs p empty-apic)
  → map idle-apic (set xs p a) ≡ map idle-apic xs
same-idle [] p a e = refl
same-idle (x ∷ xs) zero a e = cong (_∷ map idle-apic xs) e
same-idle (x ∷ xs) (suc p) a e = cong (idle-apic x ∷_) (same-idle xs p a e)

idle-with : (s : State) (p : ℕ) (a : Apic) → idle-apic a ≡ idle-apic (apic-of s p) → idle (with-apic s p a) ≡ idle s
idle-with s p a e = cong (λ apics → record s { apics = apics }) (same-idle (State.apics s) p a e)

-- an outcome that changes nothing else and emits nothing
Apart : State → Outcome → Set
Apart s o = idle (fst o) ≡ idle s × snd (snd o) ≡ []

on-board : (s : State) (p : ℕ) (o : Outcome) → Apart s o → Apart s (at-processor s p o)
on-board s p o apart = by (ltb p (processors s))
  where
  by : (b : Bool) → Apart s (if b then o else refused s NoSuchProcessor)
  by true = apart
  by false = refl , refl

taken-apart : (s : State) (p : ℕ) → idle (taken-state s p) ≡ idle s
taken-apart s p = by (next (apic-of s p))
  where
  by : (o : Option ℕ) → idle (option-map-or (λ v → with-apic s p (taken-at s p v)) o s) ≡ idle s
  by None = refl
  by (Some v) = idle-with s p (taken-at s p v) refl

ended-apart : (s : State) (p : ℕ) → idle (with-apic s p (after-end (apic-of s p))) ≡ idle s
ended-apart s p = idle-with s p (after-end (apic-of s p)) (by (greatest (Apic.in-service (apic-of s p))))
  where
  by : (o : Option ℕ) → idle-apic (option-map-or (λ v → end-vector v (apic-of s p)) o (apic-of s p)) ≡ idle-apic (apic-of s p)
  by None = refl
  by (Some v) = refl

written-apart : (s : State) (p value : ℕ) (r : Option Register) → option-map-or is-apics-register r false ≡ true
  → Apart s (option-map-or (λ r → written-register s p r value) r (unchanged s Reply.GeneralProtection))
written-apart s p value (Some Eoi) e = ended-apart s p , refl
written-apart s p value (Some Tpr) e =
  idle-with s p (with-task-priority (apic-of s p) (value % 256)) refl , refl

apart : a-local-apics-own-events-change-nothing-else
apart s (Take p) e = on-board s p _ (taken-apart s p , refl)
apart s (Write p number value) e = on-board s p (written s p number value) (written-apart s p value (register-of number) e)
