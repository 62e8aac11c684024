#!/usr/bin/env bash
# A ticket may not be used twice and may not be let go: the check refuses both, each with its own message.
set -u
top=$(cd "$(dirname "$0")/.." && pwd)
work=$(mktemp -d)
trap 'rm -rf "$work"' EXIT
mkdir -p "$work/crates/twice/src" "$work/crates/unspent/src"
cp -r "$top/crates/fault" "$top/crates/orders" "$top/crates/taker" "$work/crates/"
rm -rf "$work"/crates/*/must-fail "$work"/crates/*/out
printf 'fault:\norders: fault\ntaker: fault orders\ntwice: taker\nunspent: taker\n' >"$work/crates.txt"
cat >"$work/crates/twice/src/lib.rt" <<'T'
use taker::paragraph_taker::ParagraphTaker;
use taker::ticket::Ticket;
use taker::ticket::end;

pub fn twice<T: ParagraphTaker>(taker: &mut T, ticket: Ticket) {
    let _ = end(taker, ticket);
    let _ = end(taker, ticket);
}
T
cat >"$work/crates/unspent/src/lib.rt" <<'T'
use taker::ticket::Ticket;

pub fn unspent(_ticket: Ticket) {}
T
cd "$work" || exit 1
failed=0

# refused CRATE MESSAGE
refused() {
    if (cd "crates/$1" && rt check) >log 2>&1; then
        echo "FAILED: $1 was accepted"
        failed=1
    elif ! grep -q "^src/lib.rt:.*error\[$2\]" log; then
        echo "FAILED: $1 was refused without error[$2]"
        tail -n 5 log
        failed=1
    fi
}

refused twice borrow-e0382
refused unspent linear-value-let-go
echo "tickets: 2 misuses, $([ "$failed" = 0 ] && echo both refused || echo not both refused)"
exit "$failed"
