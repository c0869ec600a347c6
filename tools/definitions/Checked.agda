{-# OPTIONS --safe #-}
-- Whether a text is a legal trace, and otherwise its first wrong line: text-history says which texts are, and here each
-- line is compared with what may come next. An image is decided by Restored.agda; nothing is proved of the rest.
module Checked where

open import Prelude
open import Decided
open import Restored using (follows)
open import core.Option using (option-and-then; option-map)
open import core.Str using (bytes-eq)
open import lib.ListN using (length)
open import synic-board.State using (State)
open import synic-board.Step using (step)
open import synic-board.declared.event.Event using (Event)
open import synic-board.declared.event.Reply using (Reply)
open import text-base.Fields using (fields-of; spaced)
open import text-base.Lines using (joined; lines-of)
open import text-history.Trace using (end-fields; has-line; may-open; may-restore; title-fields)
open import text-history.declared.format.Format using (Format; One; Two; Three)
open import text-lines.Items using (Item)
open import text-lines.Printing using (reply-fields)
open import text-lines.Reading using (item-at; parse-event; u8-at)
open import text-lines.Sizes using (are-sizes; opened-by)
open import text-restore.Restoring using (Body; Untitled) renaming (Stage to ImageStage)
open import text-restore.Taking using (has-ended)
open import text-trace.Verdicts using (verdict-text)
open import text-trace.declared.check.Verdict using (Verdict)

-- what comes next
data Stage : Set where
  -- the title
  Title : Stage
  -- the board line, or an image
  Opening : Format → Stage
  -- a line of the image, of which these were read
  Image : Format → ImageStage → Stage
  -- an entry or the end, after that many entries
  Entry : Format → State → ℕ → Stage
  -- the line of this reply
  Answer : Format → State → ℕ → Reply → Stage
  -- nothing
  Over : ℕ → Stage

if-same : List ℕ → List (List ℕ) → Stage → Option Stage
if-same line fields stage = if bytes-eq line (spaced fields) then Some stage else None

or-else : Option Stage → Option Stage → Option Stage
or-else None other = other
or-else first other = first

title : List Format → List ℕ → Option Stage
title [] line = None
title (f ∷ formats) line = or-else (if-same line (title-fields f) (Opening f)) (title formats line)

board : Format → Option Item → Option Stage
board f (Some (Item.Opening processors pages ticket)) =
  if may-open f pages && are-sizes processors pages then Some (Entry f (opened-by processors pages ticket) 0) else None
board f item = None

-- after the end of an image its board is there
entered : Format → ImageStage → Stage
entered f (Body s last lapics) = if has-ended (Body s last lapics) then Entry f s 0 else Image f (Body s last lapics)
entered f stage = Image f stage

image-line : Format → ImageStage → List ℕ → Option Stage
image-line f stage line with follows stage line
... | found new p = Some (entered f new)
... | none p = None

performed : Format → State → ℕ → Event → Stage
performed f s entries event = share (step s event) λ outcome →
  Answer f (fst outcome) (entries + 1) (fst (snd outcome))

-- the line of an entry has the number of an actor, and an event that has a line in this format
entry : Format → State → ℕ → List (List ℕ) → Option Stage
entry f s entries [] = None
entry f s entries (actor ∷ fields) = option-and-then (λ n → option-and-then event (parse-event fields)) (u8-at actor)
  where
  event : Event → Option Stage
  event e = if has-line f e then Some (performed f s entries e) else None

next : Stage → List ℕ → Option Stage
next Title line = title (One ∷ Two ∷ Three ∷ []) line
next (Opening f) line = or-else (board f (item-at line)) (if may-restore f then image-line f Untitled line else None)
next (Image f stage) line = image-line f stage line
next (Entry f s entries) line =
  or-else (if-same line (end-fields f entries (State.next-ticket s)) (Over entries)) (entry f s entries (fields-of line))
next (Answer f s entries reply) line = if-same line (reply-fields reply) (Entry f s entries)
next (Over entries) line = None

-- the verdict after n lines, where lines are left, and whether the text ends with a whole line
verdict : Bool → ℕ → Stage → List (List ℕ) → Verdict
verdict is-whole n (Over entries) [] = if is-whole then Verdict.Legal entries else Verdict.Refused (n + 1)
verdict is-whole n stage [] = Verdict.Refused (n + 1)
verdict is-whole n stage (line ∷ lines) with next stage line
... | Some new = verdict is-whole (n + 1) new lines
... | None = Verdict.Refused (n + 1)

check : List ℕ → List ℕ
check text = share (lines-of text) λ lines → verdict-text (verdict (bytes-eq text (joined lines)) 0 Title lines)
