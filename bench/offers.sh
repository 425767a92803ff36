#!/usr/bin/env bash
# Measures the page pool alone: how many frames a second `nic_offer` packs, places and sends over the board for one thread.
#
# usage: bench/offers.sh [RUNS]
#
# For payloads of 100, 1,000 and 9,000 bytes, RUNS runs (5 if left out) of 128,000 offers, in batches of 64. Only the offers
# are timed. Between two batches the application takes each note, reads its piece and gives it back, and the card
# drains the refill ring. 1,024 buffers of 4,096 bytes, rings of 256 places, payloads of at most 64 bytes in their notes.
#
# The program is written into a temporary folder beside copies of the crates, proved and built there by rt, and removed.
set -u

runs=${1:-5}
top=$(cd "$(dirname "$0")/.." && pwd)
work=$(mktemp -d)
# what the program below stands on, with the proofs that earlier checks kept
crates=(zr_kinds area_layout board_face face_table board_parts plain_board page_pool)
trap 'rm -rf "$work"' EXIT

fail() {
    echo "offers: $*" >&2
    exit 1
}

[[ $runs =~ ^[1-9][0-9]*$ ]] || fail "usage: bench/offers.sh [RUNS]"

mkdir -p "$work/crates/offers/src" "$work/crates/offers/proofs/offer_all"
for crate in "${crates[@]}"; do
    cp -a "$top/crates/$crate" "$work/crates/"
    grep "^$crate:" "$top/crates.txt" >>"$work/crates.txt"
done
echo "offers: page_pool plain_board board_face area_layout zr_kinds face_table" >>"$work/crates.txt"

cat >"$work/crates/offers/proofs/offer_all/Invariants.antt" <<'END'
use Rattle.std.proofs.Common.{◌≡◌}
use Rattle.board_face.specs.NicCalls.{IsOpen}
use Rattle.page_pool.specs.Pool.{PoolStands}
use Rattle.offers.proofs.offer_all.Given as goal

abbrev pub invariant-loop-frame : goal.invariant-loop-frame
invariant-loop-frame g l = record {
  stands : PoolStands l.pool (g.F.NicFace.seen l.face);
  open_still : IsOpen (g.F.NicFace.seen l.face);
  setting : (g.F.NicFace.seen l.face).setting ≡ (g.F.NicFace.seen l.initial.face).setting;
  beside : g.F.NicFace.beside l.face ≡ g.F.NicFace.beside l.initial.face;
}
END

cat >"$work/crates/offers/src/main.rt" <<'END'
#![tactic(auto)]

ghost use Rattle.std.specs.Prelude.{◌≡◌, ◌<◌, ◌≤◌, length};
ghost use Rattle.std.proofs.Props.{props};
ghost use Rattle.board_face.specs.AppCalls.{IsHere, CanLend};
ghost use Rattle.board_face.specs.NicCalls.{IsOpen, apps_of};
ghost use Rattle.face_table.specs.Reader.{HasNothing};
ghost use Rattle.plain_board.specs.Board.{side_of};
ghost use Rattle.page_pool.specs.Pool.{PoolStands};

use area_layout::Layout;
use board_face::NicFace;
use face_table::serve;
use page_pool::{Offer, Pool, Verdict, nic_drain, nic_offer};
use plain_board::PlainBoard;
use std::alloc::{AllocError, Global};
use std::io;
use std::rt::Clock;
use std::time::{Duration, Instant};

const BATCH: u32 = 64;
const BATCHES: u32 = 2_000;

/// A board and the card's pool, between two calls.
#[derive(Drop)]
struct Table {
    board: PlainBoard,
    pool: Pool,
    ghost stands: { PoolStands pool board.nic.view } by { Prim.hlevel props },
    ghost open: { IsOpen board.nic.view },
    ghost here: { IsHere (side_of board 0).view },
    ghost can: { CanLend (side_of board 0).view },
    ghost nothing: { HasNothing (side_of board 0).view },
}

fn failed() -> io::Error {
    io::Error::from(io::ErrorKind::Other)
}

/// Offers a batch. It answers whether each frame was accepted.
fn offer_all<F: NicFace>(face: &mut F, pool: &mut Pool, payload: &[u8]) -> bool
    requires open { IsOpen (F.seen face.old) }
    requires stands { PoolStands pool.old (F.seen face.old) }
    requires app { 0 < apps_of (F.seen face.old).setting }
    requires some { 0 < length payload.now }
    requires most { length payload.now ≤ 65515 }
    ensures open { IsOpen (F.seen face.new) }
    ensures stands { PoolStands pool.new (F.seen face.new) }
    ensures beside { F.beside face.new ≡ F.beside face.old }
{
    let mut accepted = true;
    for frame in 0..BATCH {
        let offer = Offer {
            app: 0,
            frame,
            flow: 0,
            base: 1,
            seq: 1,
            fin: false,
            payload,
        };
        accepted &= nic_offer(face, pool, &offer) == Verdict::Accepted;
    }
    accepted
}

impl Table {
    fn open(alloc: Global) -> Result<Table, AllocError> {
        let layout = Layout::new(1024, 1, 4096).ok_or(AllocError)?;
        Ok(Table {
            board: PlainBoard::open(alloc, layout, 1, 256)?,
            pool: Pool::new(64),
        })
    }

    /// Offers a batch, and answers how long that took.
    fn batch(self, clock: &impl Clock, payload: &[u8]) -> io::Result<(Table, Duration)> {
        if payload.is_empty() || payload.len() > 65_515 {
            return Err(failed());
        }
        let mut nic = self.board.nic();
        if nic.apps() == 0 {
            return Err(failed());
        }
        let mut pool = self.pool;
        let begin = Instant::now(clock)?;
        let accepted = offer_all(&mut nic, &mut pool, payload);
        let spent = begin.elapsed(clock)?;
        if !accepted {
            return Err(failed());
        }
        Ok((
            Table {
                board: nic.back(),
                pool,
            },
            spent,
        ))
    }

    /// The application takes all notes and gives their pieces back, and the card drains the refill ring.
    fn give_back(self) -> Table {
        self.board.sound();
        let mut app = self.board.app(0);
        serve(&mut app, 256);
        let mut nic = app.back().nic();
        let mut pool = self.pool;
        nic_drain(&mut nic, &mut pool);
        Table {
            board: nic.back(),
            pool,
        }
    }
}

/// How long so many batches of a payload took.
fn measured(rt: &(impl Clock + AllocGlobal), payload: &[u8]) -> io::Result<Duration> {
    let Ok(mut table) = Table::open(rt.alloc()) else {
        return Err(failed());
    };
    let mut total = Duration::from_nanos(0);
    for _ in 0..BATCHES {
        let (then, spent) = table.batch(rt, payload)?;
        table = then.give_back();
        total = total.saturating_add(spent);
    }
    Ok(total)
}

fn main(rt: HostRuntime) -> io::Result<()> {
    let bytes = [7; 9000];
    for len in [100, 1000, 9000] {
        let total = measured(&rt, &bytes[..len])?;
        println!(rt; "{len} {}", total.as_nanos())?;
    }
    Ok(())
}
END
cd "$work/crates/offers" || exit 1
rt run >first 2>said || fail "the program isn't proved: $(grep -E "error|not proved|expected answers" said)"
for _ in $(seq "$runs"); do
    ./out/offers || fail "the program failed"
done >lines

echo "| payload | frames a second, best | median | ns a frame, best |"
echo "|---|---|---|---|"
for payload in 100 1000 9000; do
    sort -n -k 2 <<<"$(grep "^$payload " lines)" | awk -v frames=128000 '{ spent[NR] = $2 }
        END {
            best = spent[1] / frames; median = spent[int((NR + 1) / 2)] / frames
            printf "| %d | %d | %d | %.0f |\n", $1, 1e9 / best, 1e9 / median, best
        }'
done
