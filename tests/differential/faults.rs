// The faults of the faulty programs. Each is one change of the copying
// program's text: in `file`, the one place that reads `rule` is made to read
// `fault`. Shared by build.rs, which makes the changes, and bin/faulty.rs.

pub struct Fault {
    /// A Rust name: the faulty program is a module of this name.
    pub name: &'static str,
    pub says: &'static str,
    pub file: &'static str,
    pub rule: &'static str,
    pub fault: &'static str,
}

pub const FAULTS: &[Fault] = &[
    Fault {
        name: "note_b",
        says: "a resumed parent gets its last child's values",
        file: "machine.rs",
        rule: "self.resume(worker, parent);",
        fault: "self.resume(worker, parent); self.frame_mut(parent).values = ended.values;",
    },
    Fault {
        name: "note_b_tree",
        says: "a resumed parent gets its last child's values and history",
        file: "machine.rs",
        rule: "self.resume(worker, parent);",
        fault: "self.resume(worker, parent); let p = self.frame_mut(parent); \
                p.values = ended.values; p.history = ended.history;",
    },
    Fault {
        name: "thief_takes_bottom",
        says: "a thief takes the bottom frame",
        file: "machine.rs",
        rule: "self.deques[victim].remove(0)",
        fault: "self.deques[victim].pop().unwrap()",
    },
    Fault {
        name: "same_deque_children",
        says: "only children on the same deque are counted",
        file: "machine.rs",
        rule: "self.frames.values().any(|f| f.parent == Some(frame))",
        fault: "self.deques.iter().any(|deque| deque.contains(&frame) \
                && deque.iter().any(|f| self.frames[f].parent == Some(frame)))",
    },
    Fault {
        name: "equal_write_takes_none",
        says: "a write of an equal value takes no nodes, shared or not",
        file: "machine.rs",
        rule: "frame.values[splitter] = value;\n        frame.history.push(id, splitter);",
        fault: "if frame.values[splitter] != value { \
                frame.values[splitter] = value; frame.history.push(id, splitter); }",
    },
    Fault {
        name: "unshared_trees",
        says: "nodes in use are live frames times T(n)",
        file: "machine.rs",
        rule: "let count = history::nodes_in_use(live, self.splitters);",
        fault: "let count = self.nodes.min(live.len() * shape::tree_nodes(self.splitters));",
    },
    Fault {
        name: "two_frames_in_place",
        says: "a path that just two frames share is altered in place, so in both",
        file: "machine.rs",
        rule: "self.writes_made += 1;",
        fault: "let own = self.frames[&frame_id].history.clone(); \
                let holders: Vec<FrameId> = self.histories() \
                .filter(|(_, other)| other.shares(&own, 0, splitter)) \
                .map(|(id, _)| id).collect(); \
                if holders.len() == 2 { \
                for id in holders { self.frame_mut(id).values[splitter] = value; } \
                return self.free_nodes() as u32; } \
                self.writes_made += 1;",
    },
    Fault {
        name: "shared_leaf_in_place",
        says: "a shared leaf is altered in place where all nodes above it are the frame's own",
        file: "machine.rs",
        rule: "self.writes_made += 1;",
        fault: "if self.splitters > 1 && self.shared_nodes(frame_id, splitter) == 1 { \
                let own = self.frames[&frame_id].history.clone(); \
                for f in self.frames.values_mut() { \
                if f.history.shares(&own, 0, splitter) { f.values[splitter] = value; } } \
                return self.free_nodes() as u32; } \
                self.writes_made += 1;",
    },
    Fault {
        name: "two_frames_uncounted",
        says: "a write to a path that just two frames share adds nothing to the count",
        file: "machine.rs",
        rule: "frame.history.push(id, splitter);",
        fault: "let own = frame.history.clone(); \
                let sharing = self.histories() \
                .filter(|(_, other)| other.shares(&own, 0, splitter)).count(); \
                if sharing != 2 { self.frame_mut(frame_id).history.push(id, splitter); }",
    },
    Fault {
        name: "path_taken_again",
        says: "a second write takes a path again, and the old one is not freed",
        file: "machine.rs",
        rule: "self.writes_made += 1;",
        fault: "let path = shape::path_nodes(self.splitters); \
                if self.shared_nodes(frame_id, splitter) == 0 && self.free_nodes() >= path { \
                self.nodes -= path; } \
                self.writes_made += 1;",
    },
    Fault {
        name: "path_always_16",
        says: "16 is tested with H + 1 nodes, as before R-2",
        file: "machine.rs",
        rule: "self.nodes_after_write(bottom, usize::from(splitter)) > self.nodes",
        fault: "self.free_nodes() < shape::path_nodes(self.splitters)",
    },
    Fault {
        name: "whole_path_16",
        says: "16 is tested with H + 1 nodes if any node of the path is shared",
        file: "machine.rs",
        rule: "self.nodes_after_write(bottom, usize::from(splitter)) > self.nodes",
        fault: "self.shared_nodes(bottom, usize::from(splitter)) > 0 \
                && self.free_nodes() < shape::path_nodes(self.splitters)",
    },
    Fault {
        name: "full_pool_16",
        says: "every write is refused 16 when no node is free",
        file: "machine.rs",
        rule: "self.nodes_after_write(bottom, usize::from(splitter)) > self.nodes",
        fault: "self.nodes_after_write(bottom, usize::from(splitter)) > self.nodes \
                || self.free_nodes() == 0",
    },
    Fault {
        name: "strict_16",
        says: "16 is given when a write would take the last free node",
        file: "machine.rs",
        rule: "self.nodes_after_write(bottom, usize::from(splitter)) > self.nodes",
        fault: "self.shared_nodes(bottom, usize::from(splitter)) > 0 \
                && self.nodes_after_write(bottom, usize::from(splitter)) >= self.nodes",
    },
    Fault {
        name: "late_16",
        says: "16 is given one node too late",
        file: "machine.rs",
        rule: "self.nodes_after_write(bottom, usize::from(splitter)) > self.nodes",
        fault: "self.nodes_after_write(bottom, usize::from(splitter)) > self.nodes + 1",
    },
    Fault {
        name: "count_before_16",
        says: "16 is tested with the count before the write",
        file: "machine.rs",
        rule: "self.nodes_after_write(bottom, usize::from(splitter)) > self.nodes",
        fault: "self.nodes_in_use() > self.nodes",
    },
    Fault {
        name: "free_before",
        says: "a write is answered with the nodes that were free before it",
        file: "machine.rs",
        rule: "frame.history.push(id, splitter);\n        self.free_nodes() as u32",
        fault: "let before = self.free_nodes() as u32; \
                self.frame_mut(frame_id).history.push(id, splitter); before",
    },
    Fault {
        name: "outcome_1_for_2",
        says: "a resumption is answered with outcome 1",
        file: "machine.rs",
        rule: "self.resume(worker, parent);\n        2",
        fault: "self.resume(worker, parent);\n        1",
    },
    Fault {
        name: "late_copy",
        says: "a spawn's copy sees later writes of the parent",
        file: "machine.rs",
        rule: "self.writes_made += 1;",
        fault: "self.writes_made += 1; \
                for f in self.frames.values_mut() { \
                if f.parent == Some(frame_id) { f.values[splitter] = value; } }",
    },
    Fault {
        name: "idle_before_returned",
        says: "10 is checked before 9",
        file: "machine.rs",
        rule: "if self.main_has_returned() {",
        fault: "if !matches!(step, Step::Steal { .. }) && self.bottom(worker).is_none() { \
                return Err(Refusal::Idle); }\nif self.main_has_returned() {",
    },
    Fault {
        name: "sync_value_untested",
        says: "a sync's value field is not tested",
        file: "record.rs",
        rule: "(4, 0, 0)",
        fault: "(4, 0, _)",
    },
    Fault {
        name: "victim_cut",
        says: "the victim is cut to 8 bits",
        file: "record.rs",
        rule: "(3, victim, 0) => Ok(Step::Steal { worker, victim })",
        fault: "(3, victim, 0) => Ok(Step::Steal { worker, victim: victim % 256 })",
    },
    Fault {
        name: "steal_of_one",
        says: "a deque of one is stolen from",
        file: "machine.rs",
        rule: "self.deques[victim].len() < 2",
        fault: "self.deques[victim].is_empty()",
    },
    Fault {
        name: "depth_limit",
        says: "13 is tested by depth instead of live frames",
        file: "machine.rs",
        rule: "self.frames.len() == self.places",
        fault: "self.frames.values().any(|f| f.depth == 63)",
    },
    Fault {
        name: "a_place_more",
        says: "13 comes a frame later than the table has places",
        file: "machine.rs",
        rule: "self.frames.len() == self.places",
        fault: "self.frames.len() == self.places + 1",
    },
    Fault {
        name: "suspended_not_counted",
        says: "nodes that only suspended frames hold count as free",
        file: "machine.rs",
        rule: "self.frames.iter().map(|(id, frame)| (*id, &frame.history))",
        fault: "self.frames.iter().filter(|(_, frame)| !frame.suspended) \
                .map(|(id, frame)| (*id, &frame.history))",
    },
    Fault {
        name: "resumed_early",
        says: "a parent at a sync resumes though another child lives",
        file: "machine.rs",
        rule: "!self.is_suspended(parent) || self.has_live_child(parent)",
        fault: "!self.is_suspended(parent) \
                || self.is_returning(parent) && self.has_live_child(parent)",
    },
    Fault {
        name: "waiting_resumes",
        says: "a waiting parent resumes instead of ending",
        file: "machine.rs",
        rule: "if self.is_returning(parent) {",
        fault: "if false {",
    },
    Fault {
        name: "waiting_main_resumes",
        says: "Main resumes instead of ending, if it waits",
        file: "machine.rs",
        rule: "if self.is_returning(parent) {",
        fault: "if self.is_returning(parent) && parent != MAIN {",
    },
    Fault {
        name: "chain_one_early",
        says: "a chain stops one frame early: its last frame waits on",
        file: "machine.rs",
        rule: "if self.is_returning(parent) {",
        fault: "let above = self.frames[&parent].parent; \
                let goes_on = above.is_some_and(|above| self.is_returning(above) \
                && self.live_children(above) == 1); \
                if self.is_returning(parent) && !goes_on { return 1; }\n\
                if self.is_returning(parent) {",
    },
    Fault {
        name: "chain_of_one",
        says: "one waiting frame ends by a return, those above it wait on",
        file: "machine.rs",
        rule: "if self.is_returning(parent) {",
        fault: "if self.is_returning(parent) && ended.returning { return 1; }\n\
                if self.is_returning(parent) {",
    },
    Fault {
        name: "chain_of_32",
        says: "a return ends 32 frames at most, those above wait on",
        file: "machine.rs",
        rule: "if self.is_returning(parent) {",
        fault: "use std::sync::atomic::{AtomicUsize, Ordering::Relaxed}; \
                static ENDED: AtomicUsize = AtomicUsize::new(0); \
                ENDED.store(if ended.returning { ENDED.load(Relaxed) + 1 } else { 1 }, Relaxed); \
                if self.is_returning(parent) && ENDED.load(Relaxed) == 32 { return 1; }\n\
                if self.is_returning(parent) {",
    },
    Fault {
        name: "tree_released_at_once",
        says: "a waiting frame's tree is released when it begins to wait",
        file: "machine.rs",
        rule: "self.frames.iter().map(|(id, frame)| (*id, &frame.history))",
        fault: "self.frames.iter().filter(|(_, frame)| !frame.returning) \
                .map(|(id, frame)| (*id, &frame.history))",
    },
    Fault {
        name: "main_returned_waiting",
        says: "Main counts as returned while it waits",
        file: "machine.rs",
        rule: "!self.frames.contains_key(&MAIN)",
        fault: "!self.frames.contains_key(&MAIN) || self.is_returning(MAIN)",
    },
    Fault {
        name: "same_deque_waits",
        says: "only children on the same deque make a return wait",
        file: "machine.rs",
        rule: "let waits = self.has_live_child(frame_id);",
        fault: "let waits = self.deques[worker].iter() \
                .any(|f| self.frames[f].parent == Some(frame_id));",
    },
    Fault {
        name: "waiting_ends_early",
        says: "a waiting parent ends though another child lives",
        file: "machine.rs",
        rule: "!self.is_suspended(parent) || self.has_live_child(parent)",
        fault: "!self.is_suspended(parent) \
                || !self.is_returning(parent) && self.has_live_child(parent)",
    },
    Fault {
        name: "chain_answers_1",
        says: "a chain's outcome is that of the first end, taken to be 1",
        file: "machine.rs",
        rule: "return self.end(worker, parent);",
        fault: "self.end(worker, parent); return 1;",
    },
    Fault {
        name: "chain_answers_2",
        says: "a chain's outcome is that of the first end, taken to be 2",
        file: "machine.rs",
        rule: "return self.end(worker, parent);",
        fault: "self.end(worker, parent); return 2;",
    },
    Fault {
        name: "resumes_elsewhere",
        says: "a parent that a chain resumes is given to the first idle worker",
        file: "machine.rs",
        rule: "self.resume(worker, parent);",
        fault: "let first = self.deques.iter().position(Vec::is_empty).unwrap(); \
                self.resume(if ended.returning { first } else { worker }, parent);",
    },
    Fault {
        name: "outcome_1_for_4",
        says: "a return that waits is answered as a sync that waits",
        file: "machine.rs",
        rule: "frame.returning = true;\n        4",
        fault: "frame.returning = true;\n        1",
    },
    Fault {
        name: "waiting_goes_on",
        says: "a return with a live child is answered 4 and changes nothing",
        file: "machine.rs",
        rule: "self.deques[worker].pop();\n        if !waits {",
        fault: "if waits { return 4; } self.deques[worker].pop();\n        if !waits {",
    },
    Fault {
        name: "waiting_not_in_13",
        says: "waiting frames are not counted for 13",
        file: "machine.rs",
        rule: "self.frames.len() == self.places",
        fault: "self.frames.values().filter(|f| !f.returning).count() == self.places",
    },
    Fault {
        name: "waiting_child_ended",
        says: "a waiting frame does not count as its parent's live child",
        file: "machine.rs",
        rule: "self.frames.values().any(|f| f.parent == Some(frame))",
        fault: "self.frames.values().any(|f| f.parent == Some(frame) && !f.returning)",
    },
    Fault {
        name: "one_root",
        says: "all live frames are counted as sharing one root",
        file: "history.rs",
        rule: "count += writes.len();",
        fault: "count += if level == shape::height(splitters) { 1 } else { writes.len() };",
    },
    Fault {
        name: "buffer_17416",
        says: "only 17,416 bytes are read: the longest input that fits",
        file: "splitrun.rs",
        rule: "Input::parse(bytes) else {",
        fault: "Input::parse(&bytes[..bytes.len().min(17_416)]) else {",
    },
    Fault {
        name: "buffer_17415",
        says: "only 17,415 bytes are read",
        file: "splitrun.rs",
        rule: "Input::parse(bytes) else {",
        fault: "Input::parse(&bytes[..bytes.len().min(17_415)]) else {",
    },
    Fault {
        name: "buffer_16384",
        says: "only 16,384 bytes are read",
        file: "splitrun.rs",
        rule: "Input::parse(bytes) else {",
        fault: "Input::parse(&bytes[..bytes.len().min(16_384)]) else {",
    },
    Fault {
        name: "length_of_16_bits",
        says: "only the lowest 16 bits of the input's length count",
        file: "splitrun.rs",
        rule: "Input::parse(bytes) else {",
        fault: "Input::parse(&bytes[..bytes.len() % 65_536]) else {",
    },
    Fault {
        name: "long_tape_cut",
        says: "records past 16,384 bytes are left out",
        file: "splitrun.rs",
        rule: "if tape.len() > MAX_TAPE_BYTES {\n            return None;\n        }",
        fault: "let tape = &tape[..tape.len().min(MAX_TAPE_BYTES)];",
    },
    Fault {
        name: "cut_record_dropped",
        says: "a record cut short is left out",
        file: "splitrun.rs",
        rule: "!input.tape.len().is_multiple_of(RECORD_BYTES)",
        fault: "false",
    },
    Fault {
        name: "joined_on_the_right",
        says: "the view of a frame that ends joins on the right of the next one's",
        file: "machine.rs",
        rule: "next.view = view.join(next.view);",
        fault: "next.view = next.view.join(view);",
    },
    Fault {
        name: "joined_to_the_parent",
        says: "it joins the parent's though a younger sibling lives",
        file: "machine.rs",
        rule: "frames.get(place + 1).copied()",
        fault: "self.parent(frame)",
    },
    Fault {
        name: "joined_to_the_sibling",
        says: "it joins the younger sibling's though frames live below that one",
        file: "machine.rs",
        rule: "frames.get(place + 1).copied()",
        fault: "let next = frames.get(place + 1).copied()?; let depth = self.name(frame).len(); \
                frames[place + 1..].iter().copied().find(|other| self.name(*other).len() <= \
                depth).or(Some(next))",
    },
    Fault {
        name: "joined_one_below",
        says: "it joins the view one level below the younger sibling at most",
        file: "machine.rs",
        rule: "frames.get(place + 1).copied()",
        fault: "let depth = self.name(frame).len() + 1; frames[place + \
                1..].iter().copied().find(|other| self.name(*other).len() <= depth)",
    },
    Fault {
        name: "youngest_first",
        says: "siblings are ordered youngest first",
        file: "name.rs",
        rule: "Some((a, b)) => a.cmp(b),",
        fault: "Some((a, b)) => b.cmp(a),",
    },
    Fault {
        name: "parent_first",
        says: "a frame comes before all below it",
        file: "name.rs",
        rule: "None => other.len().cmp(&one.len()),",
        fault: "None => one.len().cmp(&other.len()),",
    },
    Fault {
        name: "as_they_were_made",
        says: "the live frames are ordered as they were made, Main last",
        file: "machine.rs",
        rule: "frames.sort_by(|one, other| name::order(self.name(*one), self.name(*other)));",
        fault: "frames.rotate_left(1);",
    },
    Fault {
        name: "deepest_first",
        says: "the live frames are ordered by their depth, the deepest first",
        file: "machine.rs",
        rule: "frames.sort_by(|one, other| name::order(self.name(*one), self.name(*other)));",
        fault: "frames.sort_by_key(|frame| std::cmp::Reverse(self.name(*frame).len()));",
    },
    Fault {
        name: "names_as_text",
        says: "the tenth child comes before the second, as in a text",
        file: "name.rs",
        rule: "Some((a, b)) => a.cmp(b),",
        fault: "Some((a, b)) => a.to_string().cmp(&b.to_string()),",
    },
    Fault {
        name: "continuation_keeps",
        says: "the continuation keeps the view that the child inherits",
        file: "machine.rs",
        rule: "parent.view = View::IDENTITY;",
        fault: "",
    },
    Fault {
        name: "child_begins",
        says: "the child begins with the identity, the continuation keeps the view",
        file: "machine.rs",
        rule: "view: parent.view,\n        };\n        parent.view = View::IDENTITY;",
        fault: "view: View::IDENTITY,\n        };",
    },
    Fault {
        name: "later_map_first",
        says: "the later map is applied first",
        file: "reducer.rs",
        rule: "(self.addend.wrapping_mul(later.multiplier)).wrapping_add(later.addend)",
        fault: "(later.addend.wrapping_mul(self.multiplier)).wrapping_add(self.addend)",
    },
    Fault {
        name: "add_then_multiply",
        says: "a map adds, then multiplies",
        file: "reducer.rs",
        rule: "_ => (view.multiplier, view.addend) = (value / 65_536, value % 65_536),",
        fault: "_ => (view.multiplier, view.addend) = (value / 65_536, (value / \
                65_536).wrapping_mul(value % 65_536)),",
    },
    Fault {
        name: "halves_exchanged",
        says: "the low half of a value is the multiplier",
        file: "reducer.rs",
        rule: "(value / 65_536, value % 65_536)",
        fault: "(value % 65_536, value / 65_536)",
    },
    Fault {
        name: "sum_stops",
        says: "the sum stops at the largest word",
        file: "reducer.rs",
        rule: "self.sum.wrapping_add(later.sum)",
        fault: "self.sum.saturating_add(later.sum)",
    },
    Fault {
        name: "minimum_signed",
        says: "the minimum is one of signed words",
        file: "reducer.rs",
        rule: "self.minimum.min(later.minimum)",
        fault: "(self.minimum as i32).min(later.minimum as i32) as u32",
    },
    Fault {
        name: "maximum",
        says: "the minimum is a maximum, but for the identity",
        file: "reducer.rs",
        rule: "self.minimum.min(later.minimum)",
        fault: "if self.minimum == u32::MAX { later.minimum } else if later.minimum == u32::MAX \
                { self.minimum } else { self.minimum.max(later.minimum) }",
    },
    Fault {
        name: "minimum_of_one",
        says: "the minimum of a frame is the last value that it folded",
        file: "machine.rs",
        rule: "frame.view = frame.view.join(View::of(reducer, value));",
        fault: "frame.view = frame.view.join(View::of(reducer, value)); if reducer == 1 { \
                frame.view.minimum = value; }",
    },
    Fault {
        name: "folded_in_front",
        says: "a value is folded in front of what the frame's view has",
        file: "machine.rs",
        rule: "frame.view = frame.view.join(View::of(reducer, value));",
        fault: "frame.view = View::of(reducer, value).join(frame.view);",
    },
    Fault {
        name: "folded_in_main",
        says: "all values are folded into Main's view, as they come",
        file: "machine.rs",
        rule: "let frame_id = self.executed(worker);\n        let frame = \
               self.frame_mut(frame_id);\n        frame.view",
        fault: "let frame = self.frame_mut(MAIN);\n        frame.view",
    },
    Fault {
        name: "chain_loses_views",
        says: "a frame that ends after its last child hands on no view",
        file: "machine.rs",
        rule: "self.hand_on(ended.view, next);",
        fault: "self.hand_on(if ended.returning && ended_id != MAIN { View::IDENTITY } else { \
                ended.view }, next);",
    },
    Fault {
        name: "chain_of_one_view",
        says: "of a chain, only the first frame looks for a younger sibling",
        file: "machine.rs",
        rule: "let next = self.next_in_order(ended_id);",
        fault: "let next = if self.is_returning(ended_id) { self.parent(ended_id) } else { \
                self.next_in_order(ended_id) };",
    },
    Fault {
        name: "waiting_hands_on",
        says: "a frame hands on its view when it begins to wait",
        file: "machine.rs",
        rule: "frame.returning = true;\n        4",
        fault: "frame.returning = true; let view = frame.view; if let Some(parent) = \
                frame.parent { self.frame_mut(frame_id).view = View::IDENTITY; let p = \
                self.frame_mut(parent); p.view = view.join(p.view); }\n        4",
    },
    Fault {
        name: "resumed_identity",
        says: "a resumed frame begins with the identity",
        file: "machine.rs",
        rule: "self.resume(worker, parent);",
        fault: "self.resume(worker, parent); self.frame_mut(parent).view = View::IDENTITY;",
    },
    Fault {
        name: "resumed_takes_view",
        says: "a resumed frame has its last child's view alone",
        file: "machine.rs",
        rule: "self.resume(worker, parent);",
        fault: "self.resume(worker, parent); self.frame_mut(parent).view = ended.view;",
    },
    Fault {
        name: "no_reducer_15",
        says: "kind 7 with no reducer is refused by 15",
        file: "machine.rs",
        rule: "return Err(Refusal::Reducer);",
        fault: "return Err(Refusal::Splitter);",
    },
    Fault {
        name: "four_reducers",
        says: "a reducer 3 is taken for the map",
        file: "reducer.rs",
        rule: "pub const REDUCERS: u16 = 3;",
        fault: "pub const REDUCERS: u16 = 4;",
    },
    Fault {
        name: "reducers_below_n",
        says: "20 is tested with n",
        file: "machine.rs",
        rule: "reducer >= REDUCERS",
        fault: "reducer >= REDUCERS.min(self.splitters as u16)",
    },
    Fault {
        name: "reducer_cut",
        says: "the reducer is cut to 8 bits",
        file: "record.rs",
        rule: "(7, reducer, value) => Ok(Step::Fold {\n            worker,\n            reducer,",
        fault: "(7, reducer, value) => Ok(Step::Fold {\n            worker,\n            \
                reducer: reducer % 256,",
    },
    Fault {
        name: "no_reducer_before_10",
        says: "20 is checked before 10",
        file: "machine.rs",
        rule: "let Some(bottom) = self.bottom(worker) else {",
        fault: "if matches!(step, Step::Fold { reducer: 3.., .. }) { return \
                Err(Refusal::Reducer); }\n        let Some(bottom) = self.bottom(worker) else {",
    },
    Fault {
        name: "kind_7_refused",
        says: "kind 7 is refused by 7",
        file: "record.rs",
        rule: "(7, reducer, value) =>",
        fault: "(107, reducer, value) =>",
    },
    Fault {
        name: "fold_answers_value",
        says: "a fold is answered with its value",
        file: "machine.rs",
        rule: "frame.view = frame.view.join(View::of(reducer, value));\n        0",
        fault: "frame.view = frame.view.join(View::of(reducer, value));\n        value",
    },
    Fault {
        name: "reduced_always",
        says: "the line `reduced` is printed while Main lives too, with zeros",
        file: "splitrun.rs",
        rule: "if let Some(totals) = end.totals {\n        let [sum, minimum, multiplier, \
               addend] = totals.words();",
        fault: "{\n        let [sum, minimum, multiplier, addend] = end.totals.map_or([0; 4], \
                View::words);",
    },
    Fault {
        name: "reduced_never",
        says: "no line `reduced` is printed",
        file: "splitrun.rs",
        rule: "if let Some(totals) = end.totals {",
        fault: "if let Some(totals) = end.totals.filter(|_| false) {",
    },
    Fault {
        name: "reduced_if_folded",
        says: "the line `reduced` is printed only if something was folded",
        file: "splitrun.rs",
        rule: "if let Some(totals) = end.totals {",
        fault: "if let Some(totals) = end.totals.filter(|totals| *totals != View::IDENTITY) {",
    },
];
