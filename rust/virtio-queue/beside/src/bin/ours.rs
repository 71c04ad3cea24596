// SPDX-License-Identifier: Apache-2.0
//! What chains cost: see `covretin_queue_beside::chains`.
fn main() {
    covretin_queue_beside::chains::run::<covretin_queue_beside::chains::Ours>();
}
