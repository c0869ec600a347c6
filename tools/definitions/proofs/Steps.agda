{-# OPTIONS --safe #-}
-- Each event keeps what proofs.Kept lists.
module proofs.Steps where

open import Prelude
open import arrayvec.ArrayVec using (ArrayVec)
open import board-terms.Dues using (Dues; number-of)
open import board-terms.Quantities using (TimerId)
open import board-terms.declared.messages.Message using (Message; FromPort; FromTimer)
open import board-terms.declared.messages.PortShape using (PortShape; Flags; Messages)
open import board-terms.declared.notices.Notice using (Expired; FlagSet; Notice; Skipped)
open import board-terms.declared.refusal.Refusal using (BadType; Refusal; UnknownPort)
open import core.List using (range-with-len)
open import core.Option using (is-some; option-map-or)
open import event-ports.Ports using (flag-place-of; has-room; is-posted-type; is-target; message-target-at;
  open-refusal; port-at)
open import event-ports.Shapes using (fits)
open import event-ports.declared.ports.Port using (Port)
open import gpa-space.Page using (with-bit)
open import gpa-space.Space using (is-flag-set)
open import lib.ListN using (length; set) renaming (get-or to get)
open import lapic-core.Apic using (next)
open import stimer-bank.Bank using (active-due; due-list; dues; is-due-in; timer-in; with-timer)
open import stimer-bank.Timer using (is-direct; mode-of; sint-of; vector-of)
open import stimer-bank.declared.timer.Expiry using (Expiry)
open import stimer-bank.declared.timer.Mode using (Direct; Mode; Posted)
open import stimer-bank.declared.timer.Timer using (Timer)
open import synic-board.Absorbing using (absorbed-below)
open import synic-board.Sending using (sent-below)
open import synic-board.Delivery using (delivered; tried-below)
open import synic-board.Effects
open import synic-board.Interrupts using (raised; taken-at)
open import synic-board.Posts
open import synic-board.Registers using (stored; written; written-register)
open import synic-board.Sound using (PayloadFits)
open import synic-board.State hiding (opened)
open import synic-board.Step using (step)
open import synic-board.Suspending using (is-suspended)
open import synic-board.Timers
open import synic-board.declared.event.Event using (Event)
open import synic-board.declared.event.Reply using (Reply; Accepted; Done)
open import synic-regs.Regs using (Regs; enable; has; is-refused)
open import synic-regs.Registers using (register-of)
open import synic-regs.declared.register.Register using (Register)
open import proofs.Deliveries
open import proofs.Equality
open import proofs.Kept
open import proofs.Lists
open import proofs.Numbers
open import proofs.Removals
open import proofs.Slots using (kind-at)
open State hiding (suspended)

module _ {n : ℕ} {s : State} where
  same-keeps : {r : Reply} → KeepsO n s (unchanged s r)
  same-keeps = outcome keeps-nothing

  if-keepsO : (b : Bool) {x y : Outcome} → (b ≡ true → KeepsO n s x) → (b ≡ false → KeepsO n s y)
    → KeepsO n s (if b then x else y)
  if-keepsO true p q = p refl
  if-keepsO false p q = q refl

  option-keepsO : {A : Set} (o : Option A) {f : A → Outcome} {d : Outcome} → ((x : A) → o ≡ Some x → KeepsO n s (f x))
    → (o ≡ None → KeepsO n s d) → KeepsO n s (option-map-or f o d)
  option-keepsO (Some x) p q = p x refl
  option-keepsO None p q = q refl

  effect-keeps : {r : Reply} {e : Effect} → KeepsE n s e → KeepsO n s (answered r e)
  effect-keeps k = outcome (of-effect k)

  at-processor-keeps : (p : ℕ) {o : Outcome} → (p < n → KeepsO n s o) → KeepsO n s (at-processor s p o)
  at-processor-keeps p k = if-keepsO (ltb p (processors s)) (λ e → outcome (given λ h →
    of-outcome (k (subst (p <_) (apic-count (fst h)) (is _ e))))) λ _ → same-keeps

both : (a b : Bool) → (a && b) ≡ true → a ≡ true × b ≡ true
both true true e = refl , refl

not-not : (b : Bool) → not b ≡ false → b ≡ true
not-not true e = refl

-- timers

set-mode : Mode → Set
set-mode (Direct v) = ⊤
set-mode (Posted i) = i < 16

mode-fits : (config : ℕ) → set-mode (mode-of config)
mode-fits config = by (is-direct config)
  where
  by : (b : Bool) → set-mode (if b then Direct (vector-of config) else Posted (sint-of config))
  by true = tt
  by false = remainder-below (config / 2 ^ 16) 15

due-inside : (s : State) (t : TimerId) → is-ready s t ≡ true → number-of t < length (timers s)
due-inside s t e = by (below-or (number-of t) (length (timers s)))
  where
  m = dues (bank-of s)
  size : length m ≡ length (timers s)
  size = trans (length-map (active-due (bank-of s)) (range-with-len 0 (length (timers s)))) (length-range 0 (length (timers s)))
  due : is-due-in (bank-of s) t (moment s) ≡ true
  due = fst (both _ (is-ready-for s t (mode-at s t)) e)
  by : number-of t < length (timers s) ⊎ length (timers s) ≤ number-of t → number-of t < length (timers s)
  by (inl p) = p
  by (inr p) = absurd (is-not due (cong (λ o → option-map-or (λ d → leb d (moment s)) o false)
    (get-outside m (number-of t) None (subst (_≤ number-of t) (sym size) p))))

expired-quietly : (t : TimerId) (k : ℕ) (signal : Option ℕ) (skipped : ℕ) → ended k (expiry-notices t signal skipped) ≡ 0
expired-quietly t k (Some d) zero = refl
expired-quietly t k (Some d) (suc x) = refl
expired-quietly t k None zero = refl
expired-quietly t k None (suc x) = refl

fired-keeps : (n : ℕ) (s : State) (t : TimerId) (mode : Mode) → fst t < n → set-mode mode → KeepsE n s (fired s t mode)
fired-keeps n s t mode b small = after-keeps
  (effect (keeps-quietly (λ h → set-timer (fst h) (number-of t) _ , snd h) refl refl refl
    λ k → expired-quietly t k (Expiry.signal x) (Expiry.skipped x)))
  (option-keeps (Expiry.signal x) (λ d _ → by mode small d) λ _ → nothing-keeps)
  where
  x = expiry-at s t
  by : (mode : Mode) → set-mode mode → (d : ℕ) → KeepsE n (expired-state s t) (delivery-by (expired-state s t) t mode d)
  by (Direct v) small d = requested-keeps n (expired-state s t) (fst t) v
  by (Posted i) small d = delivered-keeps n (expired-state s t) (fst t) i _ b small ((λ ()) , tt , tt) refl

attempted-keeps : (n : ℕ) (s : State) (t : TimerId) → KeepsE n s (attempted s t)
attempted-keeps n s t = if-keeps (is-ready s t) (λ e → effect (given λ h → of-effect (fired-keeps n s t (mode-at s t)
  (row-of 4 (fst t) (snd t) n (subst (number-of t <_) (timer-count (fst h)) (due-inside s t e)))
  (mode-fits (Timer.config (timer-in (bank-of s) t)))))) λ _ → nothing-keeps

attempts-keep : (n k : ℕ) (s : State) (ts : List TimerId) → KeepsE n s (attempted-until k s ts)
attempts-keep n zero s ts = nothing-keeps
attempts-keep n (suc k) s [] = nothing-keeps
attempts-keep n (suc k) s (t ∷ ts) = after-keeps (attempted-keeps n s t) 
  (attempts-keep n (if is-ready s t then k else suc k) (fst (attempted s t)) ts)

tick-keeps : (n : ℕ) (s : State) (now : ℕ) (ts : List TimerId) → KeepsE n s (attempted-until most-expiries (at-moment s now) ts)
tick-keeps n s now ts = effect (keeps-after {ns = []}
  (keeps-quietly {s = s} {now = at-moment s now} (λ h → h) refl refl refl λ t → refl)
  (of-effect (attempts-keep n most-expiries (at-moment s now) ts)))

timer-keeps : (n : ℕ) (s : State) (t : TimerId) (x : Timer) → KeepsO n s (written-timer s (with-timer (bank-of s) t x) t)
timer-keeps n s t x = effect-keeps (after-keeps
  (effect (keeps-quietly {s = s} {now = with-bank s (with-timer (bank-of s) t x)} (λ h → set-timer (fst h) (number-of t) _ , snd h)
    refl refl refl λ _ → refl))
  (attempted-keeps n (with-bank s (with-timer (bank-of s) t x)) t))

-- ports

opened-keeps : (n : ℕ) (s : State) (port p i : ℕ) (shape : PortShape) → KeepsO n s (opened-port s port p i shape)
opened-keeps n s port p i shape = option-keepsO (open-refusal (ports-of s) port p i shape) (λ _ _ → same-keeps) λ e →
  let fitting = reached (leb (length (ports s)) port) (is-some (port-at (ports-of s) port))
        (is-target (ports-of s) p i && fits shape && has-room (ports-of s) p shape) e
      (target , _) = both _ _ (fst (both (is-target (ports-of s) p i && fits shape) _ fitting) )
      (b , c) = both (ltb p (processors s)) (ltb i 16) target in
  outcome (keeps-quietly (λ h → set-port (fst h) port _ (subst (p <_) (apic-count (fst h)) (is _ b) , is _ c) , snd h)
    refl refl refl λ t → refl)
  where
  reached : {A : Set} (a b c : Bool) {x y z : A}
    → (if a then Some x else if b then Some y else if not c then Some z else None) ≡ None → c ≡ true
  reached false false true e = refl

port-of : (n : ℕ) (s : State) (port : ℕ) (x : Port) → get (ports s) port None ≡ Some x → Sound n s
  → Port.vp x < n × Port.sint x < 16
port-of n s port x e h = subst (Reaches n) e (targets (fst h) port)

closed-keeps : (n : ℕ) (s : State) (port : ℕ) → KeepsO n s (closed s port)
closed-keeps n s port = by (get (ports s) port None) refl
  where
  by : (o : Option Port) → get (ports s) port None ≡ o
    → KeepsO n s (closed-at s port (option-map-or (λ p → Ok p) o (Err UnknownPort)))
  by None e = same-keeps
  by (Some x) e = outcome (given λ h → let (b , c) = port-of n s port x e h in
    of-effect (after-keeps (effect (keeps-quietly {s = s} {now = without-port s port} (λ h → set-port (fst h) port None tt , snd h)
      refl refl refl λ t → refl)) (withdrawn-keeps n (without-port s port) (Port.vp x) (Port.sint x) port b c)))

posted-keeps : (n : ℕ) (s : State) (port kind : ℕ) (payload : ArrayVec ℕ) → length (ArrayVec.items payload) ≤ 240
  → KeepsO n s (posted s port kind payload)
posted-keeps n s port kind payload short = by (get (ports s) port None) refl
  where
  ok : (x : Port) → get (ports s) port None ≡ Some x → is-posted-type kind ≡ true → KeepsO n s (posted-at s port kind payload (Ok x))
  ok x e valid = option-keepsO (post-refusal s port (Port.vp x) (Port.shape x)) (λ _ _ → same-keeps) λ _ →
    outcome (given λ h → let (b , c) = port-of n s port x e h
                             (some , small) = both (not (kind == 0)) (ltb kind 0x80000000) valid in
      of-effect (delivered-keeps n s (Port.vp x) (Port.sint x) (FromPort (next-ticket s) port kind payload) b c
        ((λ { refl → is-not some refl }) , <-≤ kind 0x80000000 4294967296 (is _ small) tt , short) refl))
  typed : (x : Port) → get (ports s) port None ≡ Some x → (b : Bool) → is-posted-type kind ≡ b
    → KeepsO n s (posted-at s port kind payload (if b then Ok x else Err BadType))
  typed x e true valid = ok x e valid
  typed x e false valid = same-keeps
  shaped : (x : Port) → get (ports s) port None ≡ Some x → (shape : PortShape)
    → KeepsO n s (posted-at s port kind payload (message-target-at kind x shape))
  shaped x e (Messages buffers) = typed x e (is-posted-type kind) refl
  shaped x e (Flags first count) = same-keeps
  by : (o : Option Port) → get (ports s) port None ≡ o → KeepsO n s (posted-at s port kind payload
    (option-map-or (λ p → message-target-at kind p (Port.shape p)) o (Err UnknownPort)))
  by None e = same-keeps
  by (Some x) e = shaped x e (Port.shape x)

flag-keeps : (n : ℕ) (s : State) (p i flag : ℕ) (ns : List Notice) → ((t : ℕ) → ended t ns ≡ 0)
  → Keeps n s (with-flag s p i flag) ns
flag-keeps n s p i flag ns quiet = keeps-quietly (λ h → set-own (fst h) (2 * p + 1) _
    (λ inside → trans (length-set (get (own s) (2 * p + 1) []) _ _) (page-sizes (fst h) (2 * p + 1) inside)) ,
  λ q j b c e → snd h q j b c (trans (cong (λ y → kind-at y j) (sym (get-other (own s) (2 * q) (2 * p + 1) _ [] (odd q)))) e))
  refl refl refl quiet
  where
  odd : (q : ℕ) → 2 * q ≢ 2 * p + 1
  odd q x with snd (row-same 2 q p 0 1 tt tt (trans (+-zero (2 * q)) x))
  ... | ()

signalled-keeps : (n : ℕ) (s : State) (r : Result (ℕ × ℕ × ℕ) Refusal) → KeepsO n s (signalled-at s r)
signalled-keeps n s (Err r) = same-keeps
signalled-keeps n s (Ok (p , i , flag)) =
  if-keepsO (not (has (Regs.control (regs-of s p)) enable && has (Regs.sief (regs-of s p)) enable)) (λ _ → same-keeps) λ _ →
  if-keepsO (is-flag-set (space-of s) p i flag) (λ _ → outcome (flag-keeps n s p i flag [] λ t → refl)) λ _ →
  effect-keeps (after-keeps (effect (flag-keeps n s p i flag (FlagSet p i flag ∷ []) λ t → refl))
    (raised-keeps n (with-flag s p i flag) p i))

-- registers

stored-register-keeps : (n : ℕ) (s : State) (p : ℕ) (r : Register) (value : ℕ) → KeepsO n s (stored s p r value)
stored-register-keeps n s p r value = if-keepsO (is-refused r value) (λ _ → same-keeps) λ _ →
  outcome (keeps-quietly (λ h → h) refl refl refl λ t → refl)

apic-keeps : (n : ℕ) (s now : State) (r : Reply) → (Sound n s → Sound n now) → queues now ≡ queues s → slots now ≡ slots s
  → next-ticket now ≡ next-ticket s → KeepsO n s (unchanged now r)
apic-keeps n s now r f q l k = outcome (keeps-quietly f q l k λ t → refl)

register-keeps : (n : ℕ) (s : State) (p : ℕ) (r : Register) (value : ℕ) → p < n → KeepsO n s (written-register s p r value)
register-keeps n s p Register.ReferenceCounter value b = same-keeps
register-keeps n s p Register.Eoi value b = apic-keeps n s _ _ (λ h → set-apic (fst h) p _ , snd h) refl refl refl
register-keeps n s p Register.Tpr value b = apic-keeps n s _ _ (λ h → set-apic (fst h) p _ , snd h) refl refl refl
register-keeps n s p Register.Control value b = stored-register-keeps n s p Register.Control value
register-keeps n s p Register.Version value b = same-keeps
register-keeps n s p Register.Sief value b = stored-register-keeps n s p Register.Sief value
register-keeps n s p Register.Sim value b = stored-register-keeps n s p Register.Sim value
register-keeps n s p Register.Eom value b = effect-keeps {e = tried-below s p 16} (tried-below-keeps n s p 16 b tt)
register-keeps n s p (Register.Source k) value b = stored-register-keeps n s p (Register.Source k) value
register-keeps n s p (Register.TimerConfig k) value b = timer-keeps n s (p , k) _
register-keeps n s p (Register.TimerCount k) value b = timer-keeps n s (p , k) _

-- events

step-keeps : (n : ℕ) (s : State) (event : Event) → PayloadFits event → KeepsO n s (step s event)
step-keeps n s (Event.OpenPort port p i shape) fit = opened-keeps n s port p i shape
step-keeps n s (Event.ClosePort port) fit = closed-keeps n s port
step-keeps n s (Event.Write p number value) fit = at-processor-keeps p λ b →
  option-keepsO (register-of number) (λ r _ → register-keeps n s p r value b) λ _ → same-keeps
step-keeps n s (Event.Read p number) fit = at-processor-keeps p λ b → same-keeps
step-keeps n s (Event.Post port kind payload) fit = posted-keeps n s port kind payload fit
step-keeps n s (Event.Signal port flag) fit = signalled-keeps n s (flag-place-of (ports-of s) port flag)
step-keeps n s (Event.Assert p v) fit = at-processor-keeps p λ b → effect-keeps (requested-keeps n s p v)
step-keeps n s (Event.Absorb p part bits) fit = at-processor-keeps p λ b →
  if-keepsO (leb part 3) (λ _ → effect-keeps {e = absorbed-below s p part bits 64} (absorbed-keeps n s p part bits 64)) λ _ → same-keeps
step-keeps n s (Event.Store address bytes) fit = stored-keeps n s address (ArrayVec.items bytes)
step-keeps n s (Event.Load address count) fit = same-keeps
step-keeps n s (Event.Tick moment) fit = if-keepsO (ltb moment (State.moment s)) (λ _ → same-keeps) λ _ →
  if-keepsO (moment == State.moment s) (λ _ → same-keeps) λ _ → effect-keeps (tick-keeps n s moment (due-list (dues (bank-of s)) moment))
step-keeps n s (Event.Take p) fit = at-processor-keeps p λ b → outcome (by (next (apic-of s p)))
  where
  by : (o : Option ℕ) → Keeps n s (option-map-or (λ v → with-apic s p (taken-at s p v)) o s) []
  by None = keeps-nothing
  by (Some v) = keeps-quietly (λ h → set-apic (fst h) p _ , snd h) refl refl refl λ t → refl
step-keeps n s (Event.Suspend p) fit = at-processor-keeps p λ b → if-keepsO (is-suspended s p) (λ _ → same-keeps) λ _ →
  apic-keeps n s _ _ (λ h → set-apic (fst h) p _ , snd h) refl refl refl
step-keeps n s (Event.Resume p) fit = at-processor-keeps p λ b → if-keepsO (is-suspended s p)
  (λ _ → apic-keeps n s _ _ (λ h → set-apic (fst h) p _ , snd h) refl refl refl) λ _ → same-keeps
step-keeps n s (Event.Reset p) fit = at-processor-keeps p (reset-keeps n s p)
step-keeps n s (Event.Send v mask) fit = if-keepsO (ltb mask (2 ^ processors s))
  (λ _ → effect-keeps {e = sent-below s v mask 64} (sent-keeps n s v mask 64)) λ _ → same-keeps
