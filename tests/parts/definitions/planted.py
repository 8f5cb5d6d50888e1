"""Definitions with one thing planted wrong, to show that the stored sessions distinguish them from the right ones.

Of each: what is wrong, the file, its right text, the wrong one in its place, and a session that is no longer theirs.
"""

ACTIONS, CRATE = "session_actions.specs.Actions", "session_actions.specs."
WORKED = "tests/worked/"

PLANTED = (
    (
        "no call is retried",
        CRATE + "DueAttempts",
        "number c asks allowed = has_code p.codes c && not (is_stop asks) && allowed && nat_lt number p.max",
        "number c asks allowed = false",
        WORKED + "attempts/two-retries-and-a-success.report",
    ),
    (
        "a retry is made though the server forbids it",
        CRATE + "DueAttempts",
        "has_code p.codes c && not (is_stop asks) && allowed",
        "has_code p.codes c && allowed",
        WORKED + "attempts/pushbacks-that-stop.report",
    ),
    (
        "a head commits no call",
        ACTIONS,
        "next_overflow s ∷ next_headed s ∷",
        "next_overflow s ∷",
        WORKED + "attempts/a-head-cuts-the-other-hedges.report",
    ),
    (
        "a failure takes less than a token",
        CRATE + "Tokens",
        "then count - 1000",
        "then count - 999",
        WORKED + "attempts/tokens-at-half-stop-a-retry.report",
    ),
    (
        "a hedge comes a nanosecond late",
        CRATE + "DueAttempts",
        "placed + p.delay",
        "placed + p.delay + 1",
        "examples/hedge-with-a-cancelled-loser.report",
    ),
    (
        "no policy takes over",
        ACTIONS,
        "next_of_clock s ∷ next_take_over s ∷",
        "next_of_clock s ∷",
        WORKED + "channels/a-new-policy-takes-the-waiting-calls.report",
    ),
    (
        "deadlines are looked at after the event",
        ACTIONS,
        "first_action (next_deadline s ∷ event_action o.event s ∷ [])",
        "first_action (event_action o.event s ∷ next_deadline s ∷ [])",
        WORKED + "attempts/a-status-past-the-deadline.report",
    ),
    (
        "entries of the header table are a byte shorter",
        "h2_hpack.specs.Tables",
        "length f.value + 32",
        "length f.value + 31",
        WORKED + "calls/a-header-table-of-1337-bytes.report",
    ),
    (
        "no deadline ends a call",
        CRATE + "CallEnds",
        "is_open_call c && holds (λ t. nat_le t (now s)) (deadline c s)",
        "is_open_call c && false",
        WORKED + "attempts/a-status-past-the-deadline.report",
    ),
)

# Channels that break one rule for good, of the kind that a law on one moment of a session may let through.
CHANNELS = (
    (
        "each end that counts ends its call, whatever its policy",
        CRATE + "DueAttempts",
        "is_final_by plan.None c a s e = true",
        "is_final_by _ c a s e = true",
        WORKED + "attempts/a-failed-hedge-brings-the-next-one-at-once.report",
    ),
    (
        "no refused stream is tried again",
        CRATE + "Attempts",
        "is_unsent why || (unseen && is_by_peer why && is_none (commitment c s) && not (was_retried_so c s))",
        "is_unsent why",
        WORKED + "attempts/a-refused-stream-is-tried-again-once.report",
    ),
    (
        "the channel never connects",
        CRATE + "Subchannels",
        "take_dial s = option_map_or (dial_action s) (find is_dialable s.subs) (action.EventAnswered reply.NotYet)",
        "take_dial s = action.EventAnswered reply.NotYet",
        WORKED + "attempts/two-retries-and-a-success.report",
    ),
    (
        "each drain is empty",
        CRATE + "Events",
        "frame_of_event (event.Drain link most) o s = next_written link most o s",
        "frame_of_event (event.Drain link most) o s = None",
        WORKED + "attempts/two-retries-and-a-success.report",
    ),
    (
        "each pick fails",
        CRATE + "Policies",
        "action.PickRequested a.place g.number (pick_of (policy_of g s))",
        "action.PickRequested a.place g.number pick.Fail",
        WORKED + "channels/four-calls-go-round-three-addresses.report",
    ),
    (
        "throttling is ignored",
        CRATE + "Tokens",
        "run_of c s = option_and_then (numbered s.runs) (option_and_then (λ h. h.run) (config_of_call c s))",
        "run_of c s = None",
        WORKED + "attempts/tokens-at-half-stop-a-retry.report",
    ),
    (
        "each further attempt is made at once",
        CRATE + "Making",
        "if nat_le due (now s) then Some (due_attempt c s due) else None",
        "Some (due_attempt c s due)",
        WORKED + "attempts/a-retry-after-a-pushback-and-one-after-a-wait.report",
    ),
    (
        "hedges are made however few tokens are left",
        CRATE + "Making",
        "if is_hedge (kind_of_next c s) && not (has_tokens c s) then action.HedgeWithheld c.number\n    else action",
        "action",
        "tests/vectors/hedge/03/030.report",
    ),
    (
        "every wait after a failure draws the word 0",
        CRATE + "AttemptEnds",
        "then Some (next_word s) else None",
        "then Some 0 else None",
        WORKED + "attempts/two-retries-and-a-success.report",
    ),
    (
        "one end brings all further hedges",
        CRATE + "DueAttempts",
        "else record d { newest = Some a.place; placed = None; forced = None }",
        "else record d { newest = Some a.place; placed = None; forced = d.forced }",
        WORKED + "attempts/two-hedges-end-in-one-piece.report",
    ),
    (
        "of two last ends the first is committed",
        CRATE + "DueAttempts",
        "|| (is_number a.place (last_counted c s) && is_none (next_due c s)",
        "|| (is_none (next_due c s)",
        WORKED + "attempts/the-last-failed-hedge-is-the-end.report",
    ),
)
