/* faults.h: one fault at a time, chosen by the command line. */
#ifndef FAULTS_H
#define FAULTS_H

#include <stdbool.h>

/* Name, whether KVM has this difference (docs/KVM.md), and what the peer does. */
#define FAULTS(F) \
    F(polling_raises, true, "a polling source raises its vector and may be auto-EOI") \
    F(synic_on_at_reset, true, "SCONTROL is 1 after the opening and after a reset") \
    F(synic_bit_ignored, true, "bit 0 of SCONTROL is never looked at") \
    F(eoi_delivers, true, "EOI attempts delivery as EOM does") \
    F(periodic_dropped, true, "a periodic timer's message is dropped if its slot is occupied") \
    F(late_once, true, "a late periodic timer signals once and continues after the present time") \
    F(lazy_ignored, true, "the lazy bit has no effect") \
    F(write_drops_message, true, "a write of a timer drops its queued message") \
    F(enabled_until_delivered, true, "a one-shot stays enabled while its message is queued") \
    F(masked_repeats, true, "a timer's message for a masked source is written again by EOM") \
    F(no_target_runs, true, "a timer without a valid target may be enabled") \
    F(no_overlays, true, "SIMP and SIEFP name guest pages, and there are no overlays") \
    F(enabling_zeroes, true, "a write that enables SIMP or SIEFP zeroes its page") \
    F(short_image, true, "a message overwrites only its header and its payload") \
    F(timers_by_index, true, "queued timer messages are placed in the order of the timers' numbers") \
    F(one_buffer, true, "each port has one buffer") \
    F(placed_not_pending, true, "a message is placed without MessagePending") \
    F(pending_is_whole_byte, true, "MessagePending overwrites the whole byte of flags") \
    F(config_keeps_bits, true, "CONFIG keeps bits without a meaning") \
    F(deadline_wraps, true, "a deadline has 64 bits") \
    F(high_bits_fault, true, "EOI and TPR raise #GP for bits above 31") \
    F(low_vectors, true, "vectors below 16 may be requested") \
    F(absent_page_blocks, true, "no message is placed if SIMP names a page that does not exist") \
    F(post_tries_nothing, true, "a post to a queue that is not empty attempts no delivery") \
    F(any_type, true, "a post may have any type") \
    F(close_keeps, true, "closing a port leaves its messages queued") \
    F(apic_disabled, true, "the local APIC has a register that disables it") \
    F(vp_index, true, "the VP index can be read") \
    F(suspended_timers_run, true, "timers of suspended processors run") \
    F(ends, false, "the program ends when vector ff is taken") \
    F(eoi_ends_least, false, "EOI ends the least vector in service") \
    F(eoi_needs_zero, false, "EOI with a value other than 0 raises #GP") \
    F(eoi_readable, false, "EOI can be read") \
    F(class_ignored, false, "a vector in service holds back only smaller vectors") \
    F(service_ignored, false, "a vector in service holds nothing back") \
    F(tpr_ignored, false, "TPR has no effect") \
    F(tpr_by_vector, false, "TPR is compared with the whole vector") \
    F(tpr_keeps_bits, false, "TPR stores bits above the low 8") \
    F(first_vector_wins, false, "the least requested vector is next") \
    F(take_keeps_request, false, "take leaves the request bit set") \
    F(merge_while_serving, false, "a vector in service cannot be requested") \
    F(queued_requests, false, "a vector requested twice is taken twice") \
    F(auto_enters_service, false, "an auto-EOI vector enters service") \
    F(auto_while_masked, false, "a masked source makes its vector auto-EOI") \
    F(auto_of_all, false, "every source is auto-EOI") \
    F(auto_at_raise, false, "auto-EOI is decided when the source raises") \
    F(auto_of_first, false, "only the first source with the vector decides on auto-EOI") \
    F(auto_of_first_five, false, "only SINT0 to SINT4 may be auto-EOI") \
    F(masked_raises, false, "a masked source raises its vector") \
    F(tpr_at_reset, false, "TPR is f0 after the opening and after a reset") \
    F(sint_zero_at_reset, false, "SINTs are 0 after the opening and after a reset") \
    F(sint_drops_bits, false, "SINTs drop bits without a meaning") \
    F(sint_vector_unchecked, false, "a SINT takes a vector below 16") \
    F(masked_vector_checked, false, "a masked SINT with a vector below 16 raises #GP") \
    F(polling_excuses, false, "a polling SINT takes a vector below 16") \
    F(scontrol_drops_bits, false, "SCONTROL stores bit 0 only") \
    F(page_register_drops_bits, false, "SIMP and SIEFP drop bits 11 to 1") \
    F(version_writable, false, "a write of SVERSION is ignored") \
    F(counter_writable, false, "a write of the reference counter is ignored") \
    F(counter_stuck, false, "the reference counter reads 0") \
    F(eom_reads_last, false, "EOM reads 1") \
    F(unknown_ignored, false, "unknown registers read 0 and ignore writes") \
    F(slot_overwritten, false, "a message overwrites an occupied slot") \
    F(pending_forgotten, false, "MessagePending is not set in an occupied slot") \
    F(pending_always, false, "every message is placed with MessagePending") \
    F(type_byte_alone, false, "a slot counts as empty if its first byte is 0") \
    F(pending_blocks, false, "a slot with MessagePending counts as occupied") \
    F(store_delivers, false, "emptying a slot delivers the next message") \
    F(overtakes, false, "a post to an empty slot places the new message before queued ones") \
    F(payload_length, false, "the payload length in a message is always 240") \
    F(port_number, false, "a message has no port number") \
    F(slot_elsewhere, false, "slots have 128 bytes") \
    F(queues_shared, false, "a source's number alone chooses the slot: processor 0's") \
    F(eom_first_only, false, "EOM attempts delivery for the first queue only") \
    F(eom_skips_source_0, false, "EOM attempts no delivery for SINT0") \
    F(eom_first_eight, false, "EOM attempts delivery for SINT0 to SINT7 only") \
    F(eom_backwards, false, "EOM attempts delivery from SINT15 to SINT0") \
    F(eom_drains, false, "EOM withdraws what does not fit") \
    F(eom_everywhere, false, "EOM attempts delivery for all processors") \
    F(eom_needs_zero, false, "EOM with a value other than 0 does nothing") \
    F(enabling_delivers, false, "enabling SIMP or SCONTROL attempts delivery") \
    F(unmasking_raises, false, "unmasking a source with an occupied slot raises") \
    F(flag_raises_again, false, "a flag that is set already raises again") \
    F(flag_base_ignored, false, "a port's base is ignored") \
    F(flag_bytes_reversed, false, "flags count from the highest bit of a byte") \
    F(flag_never_raises, false, "a flag raises nothing") \
    F(flag_needs_mask_clear, false, "a flag of a masked source is not set") \
    F(flags_of_first, false, "all flags are those of SINT0") \
    F(signal_when_off, false, "a signal needs no enabled flags page") \
    F(overlay_order, false, "of several overlays the last is visible") \
    F(flags_over_messages, false, "the flags page is above the message page") \
    F(overlay_wipes, false, "a mapped overlay clears what it obscures") \
    F(moved_is_zeroed, false, "an overlay that moves is cleared") \
    F(hidden_not_written, false, "a hidden message page is not written") \
    F(store_goes_below, false, "stores go to the guest page below an overlay") \
    F(overlay_ignores_enable, false, "a disabled overlay is visible") \
    F(overlay_needs_synic, false, "overlays are visible only if SCONTROL is on") \
    F(past_not_tried, false, "a one-shot deadline in the past waits for a tick") \
    F(one_shot_relative, false, "a one-shot's count is relative to the present time") \
    F(one_shot_repeats, false, "a one-shot stays enabled") \
    F(one_shot_clears_count, false, "a one-shot clears its count") \
    F(count_of_32_bits, false, "COUNT keeps its low 32 bits") \
    F(early_by_one, false, "a timer expires one unit early") \
    F(late_by_one, false, "a timer expires one unit late") \
    F(same_time_retries, false, "a tick to the present time tries timers") \
    F(running_write_ignored, false, "a write that leaves a timer running does not restart it") \
    F(disable_ignored, false, "clearing Enabled does not stop a timer") \
    F(periodic_absolute, false, "a periodic timer's first deadline is its count") \
    F(periodic_drifts, false, "a period begins at the expiry") \
    F(periodic_once, false, "a periodic timer expires once") \
    F(catches_up_at_once, false, "a tick signals every missed period") \
    F(catches_up_seven, false, "a late timer catches up on seven periods") \
    F(lazy_always, false, "a lazy timer always signals its latest deadline") \
    F(lazy_half, false, "a lazy timer drops its signal in the second half of a period") \
    F(lazy_first, false, "a lazy timer signals its first missed deadline") \
    F(lazy_one_shot, false, "the lazy bit delays one-shots") \
    F(auto_enable_ignored, false, "AutoEnable has no effect") \
    F(count_enables, false, "a count enables any timer") \
    F(auto_enable_on_config, false, "a write of CONFIG with AutoEnable enables") \
    F(zero_count_enables, false, "COUNT 0 with AutoEnable enables") \
    F(zero_count_keeps, false, "COUNT 0 leaves Enabled") \
    F(direct_needs_synic, false, "a direct timer needs SCONTROL") \
    F(direct_needs_source, false, "a direct timer obeys the mask of its SINTx") \
    F(direct_sends, false, "the direct mode bit is ignored") \
    F(timer_raises_without, false, "a timer in message mode raises without a message") \
    F(timers_unordered, false, "timers are tried by processor, not by deadline") \
    F(one_timer, false, "one tick tries one timer") \
    F(expiration_now, false, "the expiration time in a message is the present time") \
    F(delivery_deadline, false, "the delivery time in a message is its deadline") \
    F(timer_buffers, false, "a timer may have two messages queued") \
    F(buffer_of_source, false, "a timer has one buffer at each source") \
    F(timer_needs_page, false, "a message timer waits while SIMP is off") \
    F(refused_counts, false, "a refused post uses a ticket") \
    F(last_ticket_early, false, "tickets are spent one too early") \
    F(timer_takes_none, false, "a timer's message takes no ticket") \
    F(first_ticket_zero, false, "tickets begin at 0") \
    F(buffers_until_emptied, false, "a message in the slot uses its buffer") \
    F(port_range, false, "ports above 15 exist") \
    F(close_unchecked, false, "a port that is not open may be closed") \
    F(open_replaces, false, "an opened port may be opened again") \
    F(kind_unchecked, false, "a port of the other kind counts as not open") \
    F(flag_range, false, "a port's count is not checked") \
    F(type_before_port, false, "the type of a post is checked before its port") \
    F(shape_unchecked, false, "buffers, base and count of a port are not checked") \
    F(clock_back, false, "the clock may go back") \
    F(length_unchecked, false, "a load of length 0 is done") \
    F(crossing_allowed, false, "an access may cross into the next page") \
    F(outside_first, false, "the page is checked before the length") \
    F(absent_is_fault, false, "an absent processor raises #GP") \
    F(suspended_takes, false, "a suspended processor takes") \
    F(resume_tries, false, "resume tries the timers that are due") \
    F(suspend_stops_timers, false, "suspend disables the timers") \
    F(suspend_drops_requests, false, "suspend drops requests") \
    F(suspended_refuses, false, "a suspended processor refuses messages") \
    F(suspended_write_tries, false, "a write tries a suspended processor's timer") \
    F(suspend_twice, false, "suspend and resume are never refused") \
    F(part_unchecked, false, "an absorb of a part above 3 is done") \
    F(reset_keeps_queue, false, "a reset keeps queued messages") \
    F(reset_keeps_slot, false, "a reset reports no message of a slot") \
    F(reset_keeps_pages, false, "a reset keeps the contents of the pages") \
    F(reset_clears_1024, false, "a reset clears the first 1024 bytes of each page only") \
    F(reset_of_eight, false, "a reset withdraws the messages of SINT0 to SINT7 only") \
    F(reset_keeps_requests, false, "a reset keeps requested vectors") \
    F(reset_keeps_service, false, "a reset keeps vectors in service") \
    F(reset_keeps_tpr, false, "a reset keeps TPR") \
    F(reset_keeps_timers, false, "a reset keeps the timers") \
    F(reset_keeps_registers, false, "a reset keeps SCONTROL, SIMP and SIEFP") \
    F(reset_suspends, false, "a reset leaves the processor suspended") \
    F(reset_closes_ports, false, "a reset closes the ports of the processor") \
    F(reset_of_all, false, "a reset resets all processors") \
    F(reset_clock, false, "a reset sets the time to 0") \
    F(type_two_bytes, false, "a slot counts as empty if the first two bytes of its type are 0") \
    F(type_three_bytes, false, "a slot counts as empty if the first three bytes of its type are 0") \
    F(type_part_consumes, false, "a store of 0 to one byte of a slot's type consumes its message") \
    F(retyped_is_consumed, false, "a store of another type consumes the message of the slot") \
    F(consumed_by_start, false, "only a store that begins at a slot consumes its message") \
    F(consumed_by_first_slot, false, "a store consumes only the message of the slot in which it begins") \
    F(next_consumes, false, "emptying a slot consumes the message of the source before it too") \
    F(store_stops_at_slot, false, "a store ends at the end of the slot in which it begins") \
    F(eighth_byte_lost, false, "a store of eight bytes stores seven") \
    F(message_writes_visible, false, "a message is written to what is visible at SIMP's page") \
    F(signal_writes_visible, false, "a signal sets its flag in what is visible at SIEFP's page") \
    F(flag_of_visible, false, "whether a flag was set is read from what is visible at SIEFP's page") \
    F(ready_at_first, false, "a tick tries only timers that were ready when it began") \
    F(ready_once, false, "a tick checks which timers are ready before it tries the first") \
    F(tried_twice, false, "a tick tries each timer twice") \
    F(others_catch_up, false, "a tick signals every missed period of timers 1 to 3") \
    F(last_processor_stopped, false, "the timers of processor 7 never expire") \
    F(lazy_one_shot_drops, false, "a late lazy one-shot may drop its signal") \
    F(lazy_one_shot_latest, false, "a late lazy one-shot signals the latest multiple of its count") \
    F(lazy_one_shot_repeats, false, "a lazy one-shot is periodic") \
    F(lazy_one_shot_relative, false, "a lazy one-shot's count is relative to the present time") \
    F(skips_untold, false, "a lazy timer that drops its signal emits no notice") \
    F(vector_15_is_target, false, "a direct timer may have vector 15") \
    F(vector_16_is_none, false, "a direct timer may not have vector 16") \
    F(low_vector_by_count, false, "a count enables a direct timer with a vector below 16") \
    F(direct_source_checked, false, "a direct timer with SINTx 0 is not enabled") \
    F(message_vector_checked, false, "a timer in message mode with a vector of 1 to 15 is not enabled") \
    F(running_unchecked, false, "a write of a running timer does not check its target") \
    F(close_tries, false, "closing a port attempts delivery from its queue") \
    F(close_drops_all, false, "closing a port withdraws the messages of all senders to its source") \
    F(close_backwards, false, "closing a port withdraws its last message first") \
    F(close_reports_half, false, "closing a port reports the second half of the messages that it withdraws") \
    F(close_ends_slot, false, "closing a port withdraws its message in the slot") \
    F(close_clears_pending, false, "closing a port clears MessagePending if the queue is then empty") \
    F(mark_drops_head, false, "an attempt that finds the slot occupied drops the head of the queue") \
    F(tickets_stay, false, "all messages take the first ticket") \
    F(payload_239, false, "a payload of 240 bytes loses its last") \
    F(shape_before_number, false, "the shape of a port is checked before its number") \
    F(shape_before_open, false, "the shape of a port is checked before whether it is open") \
    F(synic_before_type, false, "a post is checked for the SynIC before its type") \
    F(buffers_before_synic, false, "a post is checked for buffers before the SynIC") \
    F(tickets_before_synic, false, "a post is checked for tickets before the SynIC") \
    F(tickets_before_buffers, false, "a post is checked for tickets before buffers") \
    F(flag_before_kind, false, "a signal is checked for its flag before the port's kind") \
    F(synic_before_flag, false, "a signal is checked for the SynIC before its flag") \
    F(crossing_before_length, false, "an access is checked for the end of its page before its length") \
    F(crossing_before_page, false, "an access is checked for the end of its page before the page") \
    F(part_before_processor, false, "the part of an absorb is checked before the processor") \
    F(send_one, false, "a send requests its vector at one processor") \
    F(send_backwards, false, "a send begins with the highest processor") \
    F(send_ignores, false, "a send ignores processors that are not on the board") \
    F(send_half, false, "a refused send reaches the processors that are on the board") \
    F(send_word, false, "a send looks at 32 bits of its mask") \
    F(send_neighbour, false, "a send reaches the processors after those of its mask") \
    F(send_skips_lowest, false, "a send leaves out the lowest processor of its mask") \
    F(send_skips_highest, false, "a send leaves out the highest processor of its mask") \
    F(empty_mask_refused, false, "a send to no processor is refused") \
    F(absorb_backwards, false, "an absorb requests the greatest vector first") \
    F(absorb_stops, false, "an absorb ends at a vector that is requested already") \
    F(absorb_one, false, "an absorb requests one vector") \
    F(absorb_replaces, false, "an absorb replaces the requests of its part") \
    F(absorb_low_bits, false, "bits 0 to 15 of every part are ignored") \
    F(absorb_dropped, false, "an absorb requests nothing") \
    F(auto_ends_at_request, false, "an auto-EOI vector is no longer requested after its request") \
    F(resume_takes_nothing, false, "a processor that was resumed takes nothing") \
    F(all_absent, false, "no processor is on the board") \
    F(written_twice, false, "a register is written twice") \
    F(taken_twice, false, "take takes two vectors and returns the second") \
    F(close_clears_flags, false, "closing a port clears its flags") \
    F(any_page_consumes, false, "a store that clears a type in any page consumes the message of the slot at its place") \
    F(due_33rd_dropped, false, "the timers that a tick leaves after the 32nd expiry never expire") \
    F(tick_expires_33, false, "a tick expires 33 timers") \
    F(tick_expires_all, false, "a tick expires all timers that are due") \
    F(tick_by_number, false, "a tick takes the 32 due timers with the least numbers") \
    F(tick_skips_index, false, "a tick does not try a timer after one with the same index") \
    F(tick_by_index, false, "timers of a sparse board with one deadline expire by their index, then by processor") \
    F(unready_counts, false, "a timer that is not ready counts among the 32 of a tick") \
    F(mask_bit_63, false, "a send ignores bit 63 of its mask") \
    F(port_of_four_bits, false, "a port's number is cut to four bits") \
    F(sixteen_ports, false, "a sparse board has 16 ports, whatever its processors") \
    F(always_256_ports, false, "a sparse board has 256 ports, whatever its processors") \
    F(buffers_unbounded, false, "the ports of a processor may have more than 256 buffers") \
    F(buffers_of_all, false, "the limit of 256 buffers is one for all processors") \
    F(buffers_kept, false, "closing a port gives its processor no buffers back") \
    F(flags_use_buffers, false, "a port of event flags uses a buffer of its processor") \
    F(old_overlay_place, false, "an overlay of a sparse board that moves is visible where it was, too") \
    F(elsewhere_is_zero, false, "a load of a sparse board where no overlay is visible returns zeros, and a store is done") \
    F(sparse_pages, false, "a sparse board has 64 pages") \
    F(lapics_of_32, false, "processors 32 to 63 use the local APICs of processors 0 to 31")

enum fault {
    NO_FAULT,
#define F(name, kvm, what) FAULT_##name,
    FAULTS(F)
#undef F
};

extern enum fault chosen;

/* The model of KVM: these rules together, and the timers of kvm_timers.c. */
extern bool is_kvm, is_bare;

bool is_rule_of_kvm(enum fault rule);

#define IS(name) (chosen == FAULT_##name || (is_kvm && is_rule_of_kvm(FAULT_##name)))

#endif
