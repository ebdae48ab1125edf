// The seeded faults: a name, what is wrong, and the texts exchanged, each of which must stand in the patched copy, its accessors
// behind it, exactly once. Read by the build, which makes a copy of each, and by the program, which runs them.

pub struct Fault {
    pub name: &'static str,
    pub wrong: &'static str,
    pub edits: &'static [(&'static str, &'static str)],
}

const fn fault(name: &'static str, wrong: &'static str, edits: &'static [(&'static str, &'static str)]) -> Fault {
    Fault { name, wrong, edits }
}

pub const FAULTS: &[Fault] = &[
    // ---- document 01's slips ----
    fault("cap_at_equality", "a cap equal to the share wins", &[("cap < share", "cap <= share")]),
    fault(
        "one_step",
        "load * share leaves the residual in one step",
        &[
            ("let mut cap_cursor = 0;", "let mut cap_cursor = 0; let mut taken = vec![0usize; ne]; let mut by = 0.0;"),
            (
                "self.rounds += 1;\n",
                "self.rounds += 1; for e in 0..ne { if taken[e] > 0 { \
                 residual[e] = (residual[e] - taken[e] as f64 * by).max(0.0); taken[e] = 0; } }\n",
            ),
            ("residual[e] = (residual[e] - share).max(0.0);", "taken[e] += 1; by = share;"),
        ],
    ),
    fault(
        "repeat_once_in_load",
        "a repeated edge loads once",
        &[
            ("load[e] += 1;\n                on_edge", "if !on_edge[e].contains(&i) { load[e] += 1; }\n                on_edge"),
            ("- cap).max(0.0);\n                        load[e] -= 1;", "- cap).max(0.0);\n load[e] = load[e].saturating_sub(1);"),
            ("- share).max(0.0);\n                    load[e] -= 1;", "- share).max(0.0);\n load[e] = load[e].saturating_sub(1);"),
        ],
    ),
    fault(
        "cancel_fills_early",
        "cancel removes, fills, then drains",
        &[
            ("contains_key(id) {\n            self.drain_to(self.now);", "contains_key(id) {"),
            (
                "remove(id).is_some() {\n            self.rates_dirty = true;",
                "remove(id).is_some() {\n self.rates_dirty = true; self.ensure_rates(); self.drain_to(self.now); self.rates_dirty = true;",
            ),
        ],
    ),
    fault("quiet_drains", "the quiet advance drains", &[("if !self.rates_dirty\n", "if self.edges.len() > 99 && !self.rates_dirty\n")]),
    // ---- the three drains ----
    fault("cancel_no_drain", "cancel does not drain", &[("contains_key(id) {\n            self.drain_to(self.now);", "contains_key(id) {")]),
    fault("widen_no_drain", "widen does not drain", &[("bytes_per_sec: f64) {\n        self.drain_to(self.now);", "bytes_per_sec: f64) {")]),
    fault("add_edge_no_drain", "add_edge does not drain", &[("-> EdgeId {\n        self.drain_to(self.now);", "-> EdgeId {")]),
    // ---- comparisons turned ----
    fault("edge_tie_high", "at equal shares the highest edge wins", &[("share < s)", "share <= s)")]),
    fault("done_bytes_strict", "done asks bytes < B", &[("t.bytes_remaining <= DONE_EPSILON_BYTES\n", "t.bytes_remaining < DONE_EPSILON_BYTES\n")]),
    fault("done_time_strict", "done asks bytes/rate < eps", &[("/ t.rate <= eps", "/ t.rate < eps")]),
    fault("done_latency_strict", "done asks latency < eps", &[("t.latency_remaining > eps", "t.latency_remaining >= eps")]),
    fault("fill_at_b", "bytes = B takes part in a filling", &[("t.bytes_remaining > DONE_EPSILON_BYTES", "t.bytes_remaining >= DONE_EPSILON_BYTES")]),
    fault(
        "estimate_at_b",
        "bytes = B counts in an estimate",
        &[("<= DONE_EPSILON_BYTES {\n                continue", "< DONE_EPSILON_BYTES {\n                continue")],
    ),
    fault("rest_turned", "time to done takes the latency alone above B", &[("<= DONE_EPSILON_BYTES {\n            return", "> DONE_EPSILON_BYTES {\n            return")]),
    fault("rate_zero_finishes", "rate 0 gives an infinite time, not never", &[("if t.rate > 0.0 {", "if t.rate >= 0.0 {")]),
    fault("quiet_at_next_done", "an advance to next-done itself is quiet", &[("|t| t > now)", "|t| t >= now)")]),
    fault("fill_at_same_time", "a drain to the clock fills first", &[("if now > self.now {", "if now >= self.now {")]),
    fault("mean_at_zero", "mean divides by zero", &[("if until > 0.0 {", "if until >= 0.0 {")]),
    fault("share_zero_estimates", "a share of 0 is divided by", &[("if share <= 0.0 ||", "if share < 0.0 ||")]),
    fault("estimate_cap_zero", "an estimate divides by cap 0", &[("if cap > 0.0 =>", "if cap >= 0.0 =>")]),
    fault("eps_smaller", "eps is the smaller of the two", &[("EPSILON).max(self.floor)", "EPSILON).min(self.floor)")]),
    fault("eps_without_4", "eps lacks the factor 4", &[("abs() * 4.0 *", "abs() * 1.0 *")]),
    fault("next_done_last", "next-done is the largest time", &[(".min_by(", ".max_by(")]),
    fault("quiet_needs_later", "an advance to the clock itself is never quiet", &[("now >= self.now", "now > self.now")]),
    fault("flows_in_no_time", "an infinite rate moves bytes in no time", &[("if dt > 0.0 && t.rate", "if dt >= 0.0 && t.rate")]),
    fault("pays_the_larger", "the latency pays the larger of itself and dt", &[("latency_remaining.min(dt)", "latency_remaining.max(dt)")]),
    fault("estimate_widest", "an estimate takes the widest edge", &[("f64::INFINITY, f64::min", "0.0, f64::max")]),
    fault("estimate_cap_larger", "an estimate takes the cap if larger", &[("share.min(cap)", "share.max(cap)")]),
    fault("estimate_latency", "an estimate over a path keeps a latency below zero", &[("latency.max(0.0) + bytes / share", "latency + bytes / share")]),
    // ---- orders changed ----
    fault(
        "eps_of_old_clock",
        "an advance takes eps before it drains",
        &[(
            "self.drain_to(now);\n        self.ensure_rates();\n        let eps = self.done_eps();",
            "let eps = self.done_eps();\n        self.drain_to(now);\n        self.ensure_rates();",
        )],
    ),
    fault("cap_tie_high", "at equal caps the highest slot goes first", &[("a.1.total_cmp(&b.1)", "a.1.total_cmp(&b.1).then(b.0.cmp(&a.0))")]),
    fault("caps_descending", "the largest cap goes first", &[("a.1.total_cmp(&b.1)", "b.1.total_cmp(&a.1)")]),
    fault("list_descending", "completions by descending id", &[("a.1.cmp(&b.1)", "b.1.cmp(&a.1)")]),
    fault("list_by_slot", "completions by slot", &[("done.sort_by(|a, b| a.1.cmp(&b.1));", "")]),
    fault("slots_backwards", "walks go from the highest slot", &[("crate::slots::SlotMap as", "crate::odd_slots::Backwards as")]),
    fault("highest_free_slot", "a new transfer takes the highest free slot", &[("crate::slots::SlotMap as", "crate::odd_slots::HighestFree as")]),
    fault("slots_never_reused", "freed slots are not used again", &[("crate::slots::SlotMap as", "crate::odd_slots::NeverAgain as")]),
    fault(
        "submit_inserts_first",
        "a submission drains after inserting",
        &[
            ("self.drain_to(now);\n        match owner", "let until = now; let now = self.now;\n        match owner"),
            ("self.rates_dirty = true;\n    }\n\n    /// Advance every", "self.rates_dirty = true; self.drain_to(until);\n    }\n\n    /// Advance every"),
        ],
    ),
    fault("peak_before", "the peak is taken before inserting", &[("self.peak_in_flight.max(self.in_flight.len())", "self.peak_in_flight.max(self.in_flight.len() - 1)")]),
    // ---- steps left out or added ----
    fault("no_clamp", "a residual may fall below 0", &[("(residual[e] - share).max(0.0)", "residual[e] - share")]),
    fault("latency_flows", "bytes flow while the latency is paid", &[("dt -= l;", "")]),
    fault("moves_too_much", "more may move than is left", &[("(t.rate * dt).min(t.bytes_remaining)", "t.rate * dt")]),
    fault(
        "moved_halved",
        "an edge met twice counts half the moved bytes each time",
        &[("bytes_moved += moved;", "bytes_moved += if t.path.iter().position(|x| *x == e) < t.path.iter().rposition(|x| *x == e) { moved / 2.0 } else { moved };")],
    ),
    fault("integral_once", "the drain's load integral counts an edge once", &[("busy_transfer_seconds += c as f64 * dt;\n            }\n", "busy_transfer_seconds += (c.min(1)) as f64 * dt;\n            }\n")]),
    fault("quiet_integral_once", "the quiet advance's load integral counts an edge once", &[("busy_transfer_seconds += c as f64 * dt;\n                }\n", "busy_transfer_seconds += (c.min(1)) as f64 * dt;\n                }\n")]),
    fault("latency_no_share", "a latency still being paid holds no share", &[("t.bytes_remaining > DONE_EPSILON_BYTES", "t.bytes_remaining > DONE_EPSILON_BYTES && t.latency_remaining <= 0.0")]),
    fault("done_not_stale", "completions leave the rates as they are", &[("if !done.is_empty() {", "if done.len() > 999 {")]),
    fault("widen_not_stale", "widen leaves the rates as they are", &[("capacity += bytes_per_sec;\n        self.rates_dirty = true;", "capacity += bytes_per_sec;")]),
    fault("estimate_without_itself", "an estimate forgets the new transfer", &[("(load[e] + 1) as f64", "load[e].max(1) as f64")]),
    fault("settle_no_drain", "settle does not drain", &[("self.drain_to(now);\n        self.ensure_rates();\n        self.in_flight", "self.ensure_rates();\n        self.in_flight")]),
    fault("settle_no_filling", "settle leaves rates stale", &[("self.drain_to(now);\n        self.ensure_rates();\n        self.in_flight", "self.drain_to(now);\n        self.in_flight")]),
    fault("settle_fills_anew", "settle fills rates that are up to date", &[("self.drain_to(now);\n        self.ensure_rates();\n        self.in_flight", "self.drain_to(now); self.rates_dirty = true;\n        self.ensure_rates();\n        self.in_flight")]),
    fault("quiet_records", "the quiet advance counts as a drain", &[("self.now = now;\n            }\n            return Vec::new();", "self.now = now; self.last_drain = now;\n            }\n            return Vec::new();")]),
    fault("nobody_drained", "a drain with nobody in flight is not recorded", &[("self.last_drain = now;", "if !self.in_flight.is_empty() { self.last_drain = now; }")]),
    fault("drained_before", "a drain records the clock it starts from", &[("self.last_drain = now;", "self.last_drain = self.now;")]),
    fault("delay_below_zero", "the delay may fall below 0", &[("(t - self.now).max(0.0)", "(t - self.now)")]),
    fault("latency_below_zero", "a latency below zero is kept", &[("latency_remaining: latency.max(0.0)", "latency_remaining: latency")]),
    fault("no_path_no_rate", "no path and no cap gives rate 0", &[("unwrap_or(f64::INFINITY)", "unwrap_or(0.0)")]),
    fault(
        "idle_rate_reset",
        "a transfer without bytes loses its rate in a filling",
        &[("let mut ts: Vec<", "for t in self.in_flight.values_mut() { if t.bytes_remaining <= DONE_EPSILON_BYTES { t.rate = 0.0; } }\n        let mut ts: Vec<")],
    ),
    fault("rounds_with_caps_only", "rounds won by a cap are not counted", &[("frozen[i] = true;\n                    unfrozen -= 1;", "frozen[i] = true; self.rounds -= 1;\n                    unfrozen -= 1;")]),
    // ---- who froze a transfer, which the Rust has not: what records it ----
    fault("by_first_edge", "an edge's round tells the first edge of the path", &[("t.frozen_by = Bottleneck::Edge(edge);", "t.frozen_by = Bottleneck::Edge(t.path[0]);")]),
    fault("by_last_edge", "an edge's round tells the last edge of the path", &[("t.frozen_by = Bottleneck::Edge(edge);", "t.frozen_by = Bottleneck::Edge(t.path[t.path.len() - 1]);")]),
    fault(
        "by_losing_edge",
        "an edge's round tells another edge of the path where there is one",
        &[("t.frozen_by = Bottleneck::Edge(edge);", "t.frozen_by = Bottleneck::Edge(t.path.iter().copied().find(|e| *e != edge).unwrap_or(edge));")],
    ),
    fault(
        "by_tie_high",
        "of the path's edges with the same share the highest is told",
        &[
            (
                "let members = std::mem::take(&mut on_edge[edge]);",
                "let tied: Vec<bool> = (0..ne).map(|e| load[e] > 0 && residual[e] / load[e] as f64 == share).collect(); let members = std::mem::take(&mut on_edge[edge]);",
            ),
            ("t.frozen_by = Bottleneck::Edge(edge);", "t.frozen_by = Bottleneck::Edge(t.path.iter().copied().filter(|e| tied[*e]).max().unwrap_or(edge));"),
        ],
    ),
    fault("by_round", "an edge's round tells the number of the round", &[("t.frozen_by = Bottleneck::Edge(edge);", "t.frozen_by = Bottleneck::Edge(self.rounds as usize - 1);")]),
    fault(
        "by_first_of_round",
        "an edge's round tells it of the first alone",
        &[
            ("let members = std::mem::take(&mut on_edge[edge]);", "let mut first = true; let members = std::mem::take(&mut on_edge[edge]);"),
            ("t.frozen_by = Bottleneck::Edge(edge);", "if std::mem::take(&mut first) { t.frozen_by = Bottleneck::Edge(edge); }"),
        ],
    ),
    fault("by_edge_pending", "an edge's round tells nothing of who still pays its latency", &[("t.frozen_by = Bottleneck::Edge(edge);", "if t.latency_remaining <= 0.0 { t.frozen_by = Bottleneck::Edge(edge); }")]),
    fault("by_edge_stalled", "an edge without capacity is not told", &[("t.frozen_by = Bottleneck::Edge(edge);", "if share > 0.0 { t.frozen_by = Bottleneck::Edge(edge); }")]),
    fault("by_cap_at_rate", "whoever an edge's round freezes at exactly its cap is told the cap", &[("t.frozen_by = Bottleneck::Edge(edge);", "t.frozen_by = if t.rate_cap == Some(t.rate) { Bottleneck::Cap } else { Bottleneck::Edge(edge) };")]),
    fault("by_edge_for_cap", "a cap's round tells the edge with the least share", &[("ts[i].frozen_by = Bottleneck::Cap;", "ts[i].frozen_by = best.map_or(Bottleneck::Cap, |(e, _)| Bottleneck::Edge(e));")]),
    fault("by_path_for_cap", "a cap's round tells the first edge of the path", &[("ts[i].frozen_by = Bottleneck::Cap;", "ts[i].frozen_by = Bottleneck::Edge(ts[i].path[0]);")]),
    fault("by_cap_untold", "a cap's round tells nothing", &[("ts[i].frozen_by = Bottleneck::Cap;", "")]),
    fault("by_cap_zero", "a cap of 0 is not told", &[("ts[i].frozen_by = Bottleneck::Cap;", "if cap > 0.0 { ts[i].frozen_by = Bottleneck::Cap; }")]),
    fault("by_cap_alone", "an empty path with a cap is told the cap", &[("t.rate = t.rate_cap.unwrap_or(f64::INFINITY);", "t.rate = t.rate_cap.unwrap_or(f64::INFINITY); if t.rate_cap.is_some() { t.frozen_by = Bottleneck::Cap; }")]),
    fault("by_kept_outside", "who takes no part in a filling keeps who froze it", &[("self.in_flight.values_mut().for_each(|t| t.frozen_by = Bottleneck::Outside);", "")]),
    fault("by_guess", "a submission begins with the first edge of its path", &[("frozen_by: Bottleneck::Outside,", "frozen_by: path.first().map_or(Bottleneck::Outside, |e| Bottleneck::Edge(*e)),")]),
    fault(
        "by_former",
        "a submission begins with what the last transfer to leave had",
        &[
            ("pub struct Flows {\n", "pub struct Flows {\n    former: Option<Bottleneck>,\n"),
            ("if self.in_flight.remove(id).is_some() {", "if let Some(t) = self.in_flight.remove(id) { self.former = Some(t.frozen_by);"),
            ("self.in_flight.remove(id);", "self.former = self.in_flight.remove(id).map(|t| t.frozen_by);"),
            ("frozen_by: Bottleneck::Outside,", "frozen_by: self.former.take().unwrap_or(Bottleneck::Outside),"),
        ],
    ),
    fault("by_reset_by_drain", "a drain resets who froze whom", &[("self.last_drain = now;", "self.last_drain = now; self.in_flight.values_mut().for_each(|t| t.frozen_by = Bottleneck::Outside);")]),
    fault(
        "by_reset_by_quiet",
        "the quiet advance resets who froze whom",
        &[("self.now = now;\n            }\n            return Vec::new();", "self.now = now; self.in_flight.values_mut().for_each(|t| t.frozen_by = Bottleneck::Outside);\n            }\n            return Vec::new();")],
    ),
    fault(
        "by_reset_by_cancel",
        "cancel resets who froze the others",
        &[("remove(id).is_some() {\n            self.rates_dirty = true;", "remove(id).is_some() {\n            self.rates_dirty = true; self.in_flight.values_mut().for_each(|t| t.frozen_by = Bottleneck::Outside);")],
    ),
    fault(
        "by_reset_by_widen",
        "widen resets who was frozen by its edge",
        &[(
            "capacity += bytes_per_sec;\n",
            "capacity += bytes_per_sec; self.in_flight.values_mut().filter(|t| t.frozen_by == Bottleneck::Edge(edge)).for_each(|t| t.frozen_by = Bottleneck::Outside);\n",
        )],
    ),
    fault(
        "by_reset_at_b",
        "whose bytes a drain brings to B or below loses who froze it",
        &[("t.bytes_remaining -= moved;", "t.bytes_remaining -= moved; if t.bytes_remaining <= DONE_EPSILON_BYTES { t.frozen_by = Bottleneck::Outside; }")],
    ),
    // ---- the floor, which is a constant in the Rust: what reads it ----
    fault("floor_added", "eps is the sum of the floor and what the clock adds", &[("EPSILON).max(self.floor)", "EPSILON) + self.floor")]),
    fault("floor_is_b", "B stands where the floor should", &[("EPSILON).max(self.floor)", "EPSILON).max(DONE_EPSILON_BYTES)")]),
    fault(
        "floor_without_clock",
        "with a floor of its own eps no longer grows with the clock",
        &[("(self.now.abs() * 4.0 * f64::EPSILON).max(self.floor)", "if self.floor > DONE_EPSILON_SECONDS { self.floor } else { (self.now.abs() * 4.0 * f64::EPSILON).max(self.floor) }")],
    ),
    fault(
        "floor_not_in_advance",
        "an advance asks who is done by the default",
        &[("let eps = self.done_eps();\n        let mut done", "let eps = (self.now.abs() * 4.0 * f64::EPSILON).max(DONE_EPSILON_SECONDS);\n        let mut done")],
    ),
    fault(
        "floor_not_in_next_done",
        "next-done goes by the default",
        &[("let eps = self.done_eps();\n            let now", "let eps = (self.now.abs() * 4.0 * f64::EPSILON).max(DONE_EPSILON_SECONDS);\n            let now")],
    ),
    fault("floor_not_in_latency", "a latency is held against the default", &[("t.latency_remaining > eps", "t.latency_remaining > eps.min(DONE_EPSILON_SECONDS)")]),
    fault("floor_in_quiet", "an advance that ends within the floor of next-done is not quiet", &[("|t| t > now)", "|t| t > now + self.floor)")]),
    fault("floor_in_delay", "a delay within the floor is told as 0", &[("(t - self.now).max(0.0)", "if t - self.now <= self.floor { 0.0 } else { t - self.now }")]),
    fault(
        "floor_in_filling",
        "who is done by the floor takes no part in a filling",
        &[("t.bytes_remaining > DONE_EPSILON_BYTES)", "t.bytes_remaining > DONE_EPSILON_BYTES && !Self::is_done(t, self.floor))")],
    ),
    fault("floor_in_submission", "a latency within the floor is dropped by the submission", &[("latency_remaining: latency.max(0.0)", "latency_remaining: if latency <= self.floor { 0.0 } else { latency }")]),
    fault("floor_in_estimate", "an estimate leaves a latency within the floor out", &[("latency.max(0.0) + bytes / share", "(if latency <= self.floor { 0.0 } else { latency }) + bytes / share")]),
    // ---- the floor: how a simulator is made with one, in the accessor behind it ----
    fault("floor_low_end", "the finest floor is refused", &[("floor >= outward(DONE", "floor > outward(DONE")]),
    fault("floor_high_end", "the coarsest floor is refused", &[("floor <= COARSEST", "floor < COARSEST")]),
    fault("floor_any_low", "floors below the finest are taken", &[("floor >= outward(DONE_EPSILON_SECONDS) && ", "")]),
    fault("floor_any_high", "floors above the coarsest are taken", &[(" && floor <= COARSEST", "")]),
    fault("floor_nan", "a NaN is taken", &[("floor >= outward(DONE_EPSILON_SECONDS) && floor <= COARSEST", "!(floor < outward(DONE_EPSILON_SECONDS) || floor > COARSEST)")]),
    fault("floor_clamped", "a floor out of range is brought into it", &[("Some(_) => return false,", "Some(floor) => with_floor(floor.clamp(outward(DONE_EPSILON_SECONDS), COARSEST)),")]),
    fault("floor_kept", "new without a floor keeps the last one", &[("None => Flows::new(),", "None => Flows { floor: self.floor, ..Flows::new() },")]),
    fault("floor_refused_afresh", "a refused floor leaves a fresh simulator", &[("Some(_) => return false,", "Some(_) => { *self = Flows::new(); return false; }")]),
    fault("floor_in_place", "a floor is set and the simulator kept", &[("*self = fresh;", "if floor.is_some() { self.floor = fresh.floor; } else { *self = fresh; }")]),
    // ---- the question that only reads, which the Rust has not: its accessor ----
    fault(
        "remaining_default_floor",
        "remaining takes the default floor",
        &[("Self::time_to_done(t, self.done_eps()).map(outward)", "Self::time_to_done(t, (self.now * 4.0 * f64::EPSILON).max(DONE_EPSILON_SECONDS)).map(outward)")],
    ),
    fault(
        "remaining_old_eps",
        "remaining takes eps at the last drain",
        &[("Self::time_to_done(t, self.done_eps()).map(outward)", "Self::time_to_done(t, (t.last_update * 4.0 * f64::EPSILON).max(self.floor)).map(outward)")],
    ),
    fault(
        "remaining_passed_off",
        "remaining takes off the time since the last drain",
        &[("Self::time_to_done(t, self.done_eps()).map(outward)", "Self::time_to_done(t, self.done_eps()).map(|left| outward((left - (self.now - t.last_update)).max(0.0)))")],
    ),
    fault(
        "remaining_as_settled",
        "remaining answers as if it were settled",
        &[("let transfer = self.in_flight.get", "let mut settled = self.clone(); settled.settle(); let transfer = settled.in_flight.get")],
    ),
    // ---- the question who froze a transfer: its accessor ----
    fault("bottleneck_no_filling", "the question who froze a transfer does not fill", &[("self.ensure_rates();\n        self.in_flight.get(name_of(id).as_str()).map(bottleneck_of)", "self.in_flight.get(name_of(id).as_str()).map(bottleneck_of)")]),
    fault(
        "bottleneck_known_fills",
        "that question fills for known ids alone",
        &[("self.ensure_rates();\n        self.in_flight.get(name_of(id).as_str()).map(bottleneck_of)", "if self.contains(&name_of(id)) { self.ensure_rates(); }\n        self.in_flight.get(name_of(id).as_str()).map(bottleneck_of)")],
    ),
    fault(
        "bottleneck_fills_anew",
        "that question fills rates that are up to date",
        &[("self.ensure_rates();\n        self.in_flight.get(name_of(id).as_str()).map(bottleneck_of)", "self.rates_dirty = true; self.ensure_rates();\n        self.in_flight.get(name_of(id).as_str()).map(bottleneck_of)")],
    ),
    fault(
        "bottleneck_drains",
        "that question drains first",
        &[("self.ensure_rates();\n        self.in_flight.get(name_of(id).as_str()).map(bottleneck_of)", "self.drain_to(self.now); self.ensure_rates();\n        self.in_flight.get(name_of(id).as_str()).map(bottleneck_of)")],
    ),
    fault("bottleneck_of_bytes", "whoever has at most B bytes by now is told to have nobody", &[("Some(t.frozen_by)", "Some(if t.bytes_remaining <= DONE_EPSILON_BYTES { Bottleneck::Outside } else { t.frozen_by })")]),
    fault("bottleneck_of_cap", "whoever runs at its cap is told the cap", &[("Some(t.frozen_by)", "Some(if t.rate_cap == Some(t.rate) && t.frozen_by != Bottleneck::Outside { Bottleneck::Cap } else { t.frozen_by })")]),
];

/// Edits that were looked at and change nothing, with the reason. The program makes sure that nothing tells them apart.
pub const HARMLESS: &[Fault] = &[
    fault(
        "rest_strict",
        "time to done, bytes < B: bytes between 0 and B only stand behind a paid latency, and then the transfer is done",
        &[("<= DONE_EPSILON_BYTES {\n            return", "< DONE_EPSILON_BYTES {\n            return")],
    ),
    fault("done_rate_zero", "done, rate >= 0: bytes/0 is infinite, which is not below eps", &[("(t.rate > 0.0 && t.b", "(t.rate >= 0.0 && t.b")]),
    fault(
        "cap_no_clamp",
        "no clamp in a cap's round: the cap lies below the rounded share, so its crossings fit while load is left",
        &[("(residual[e] - cap).max(0.0)", "residual[e] - cap")],
    ),
    fault("share_as_is", "a share's rate not raised to 0: residuals never fall below 0", &[("t.rate = share.max(0.0)", "t.rate = share")]),
    fault("cap_as_is", "a cap's rate not raised to 0: caps below 0 are refused", &[(".rate = cap.max(0.0)", ".rate = cap")]),
    fault(
        "step_of_zero",
        "draining goes on at dt = 0 and pays a latency of 0: nothing is paid",
        &[("if dt <= 0.0 {", "if dt < 0.0 {"), ("if t.latency_remaining > 0.0 {", "if t.latency_remaining >= 0.0 {")],
    ),
    fault(
        "moves_nothing",
        "draining goes on at rate 0 or without bytes: nothing is moved",
        &[("&& t.rate > 0.0 && t.bytes_remaining > 0.0", "&& t.rate >= 0.0 && t.bytes_remaining >= 0.0")],
    ),
    fault(
        "integral_of_zero",
        "load integrals grow at dt = 0: zero is added",
        &[
            ("self.now;\n            if dt > 0.0 {", "self.now;\n            if dt >= 0.0 {"),
            ("self.now;\n        if dt > 0.0 {", "self.now;\n        if dt >= 0.0 {"),
        ],
    ),
    fault(
        "load_table",
        "the quiet advance does not look at the load table's length: what adds an edge makes rates stale",
        &[("&& self.edge_load.len() == self.edges.len()", "")],
    ),
    fault("share_finite", "an estimate does not ask whether its share is infinite: capacities and caps are finite", &[("|| !share.is_finite() {", "{")]),
];
