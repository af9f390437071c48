//! PackBits rows of about 1 MiB in all, unpacked and packed, beside hand-written Rust that finds a fault before it writes and
//! such that does not, libtiff and memcpy.
use crate::libtiff::{Libtiff, Memory};
use crate::packbits_by_hand as by_hand;
use crate::{both, from_page, noise, seconds, PAGE};
use hamrisk::{pack_row, packed_length, unpack_row, write_plan, Plan, Planned};
use std::hint::black_box;

/// The bytes of all rows, or a little fewer.
const SIZE: usize = 1 << 20;

/// Rows of a kind, the plan of each, and what all are packed as.
struct Rows {
    name: String,
    row_bytes: usize,
    bytes: Vec<u8>,
    plans: Vec<Plan>,
    packed: Vec<u8>,
}

impl Rows {
    fn new(name: &str, row_bytes: usize, mut bytes: Vec<u8>, plan: fn(&[u8]) -> Plan) -> Rows {
        bytes.truncate(bytes.len() / row_bytes * row_bytes);
        let rows = || bytes.chunks_exact(row_bytes);
        let plans: Vec<Plan> = rows().map(plan).collect();
        let mut packed = vec![0; plans.iter().map(Plan::length).sum()];
        let each = rows().zip(&plans);
        each.fold(0, |at, (row, plan)| at + write_plan(row, plan, &mut packed[at..]).unwrap());
        Rows { name: format!("{name}, rows of {row_bytes} bytes"), row_bytes, bytes, plans, packed }
    }
}

/// Literals of 128 bytes and a shorter last one.
fn literals(row: &[u8]) -> Plan {
    row.chunks(128).map(|part| Planned::Literal(part.len() as u8)).collect()
}

/// The kinds and lengths of a plan.
fn lists(plan: &Plan) -> (Vec<u8>, Vec<u8>) {
    let pair = |packet| match packet {
        Planned::Literal(bytes) => (0, bytes),
        Planned::Repeat(bytes) => (1, bytes),
    };
    plan.packets().map(pair).unzip()
}

/// Flat parts of 3 to 50 bytes between others of 1 to 48, as a shelf has them.
fn camera_like() -> Vec<u8> {
    let (lengths, values) = (noise(SIZE, 11), noise(SIZE, 12));
    let mut bytes = vec![];
    for (k, &length) in lengths.iter().enumerate() {
        let length = usize::from(length) % 48;
        if k % 2 == 0 {
            bytes.extend(vec![values[k]; 3 + length]);
        } else {
            bytes.extend(&values[k..(k + 1 + length).min(SIZE)]);
        }
        if bytes.len() >= SIZE {
            break;
        }
    }
    bytes.truncate(SIZE);
    bytes
}

/// Runs of 128 bytes.
fn runs() -> Vec<u8> {
    noise(SIZE / 128, 13).iter().flat_map(|&byte| [byte; 128]).collect()
}

fn kinds() -> Vec<Rows> {
    vec![
        Rows::new("literals of 128", 1_280, noise(SIZE, 10), literals),
        Rows::new("literals of 64", 64, noise(SIZE, 10), literals),
        Rows::new("literals of 128", SIZE, noise(SIZE, 10), literals),
        Rows::new("runs of 128", 1_280, runs(), Plan::of),
        Rows::new("camera-like", 1_280, camera_like(), Plan::of),
    ]
}

/// How fast ours is as a part of what another is.
fn ratio(theirs: Option<f64>, ours: f64) -> String {
    theirs.map(|theirs| format!("{:.2}", theirs / ours)).unwrap_or_default()
}

/// Unpacks row after row by a call.
fn each_row(packed: &[u8], row_bytes: usize, out: &mut [u8], call: impl Fn(&[u8], &mut [u8]) -> usize) {
    let mut at = 0;
    for row in out.chunks_exact_mut(row_bytes) {
        at += call(black_box(&packed[at..]), row);
    }
    assert!(at == packed.len());
}

fn print_unpacked(rows: &Rows, libtiff: Option<&Libtiff>) {
    let (n, row_bytes) = (rows.bytes.len(), rows.row_bytes);
    let mut spaces = [(); 5].map(|()| vec![0; n + n / 64 + PAGE]);
    let [input, a, b, c, d] = spaces.each_mut().map(|space| from_page(space, n + n / 64));
    let packed = &mut input[..rows.packed.len()];
    packed.copy_from_slice(&rows.packed);
    let [a, b, c, d] = [a, b, c, d].map(|space| &mut space[..n]);
    let (ours, checked) = both(
        || each_row(packed, row_bytes, a, |packed, row| unpack_row(packed, row).unwrap()),
        || each_row(packed, row_bytes, b, |packed, row| by_hand::unpack_row_checked(packed, row).unwrap()),
    );
    let plain = seconds(|| each_row(packed, row_bytes, c, |packed, row| by_hand::unpack_row(packed, row).unwrap()));
    let tiff = libtiff.map(|lib| {
        let mut read = lib.unpacker(row_bytes, n / row_bytes, packed);
        seconds(|| read(black_box(d)))
    });
    assert!(*a == rows.bytes && *b == rows.bytes && *c == rows.bytes, "{}", rows.name);
    assert!(tiff.is_none() || *d == rows.bytes, "libtiff: {}", rows.name);
    let copy = seconds(|| c.copy_from_slice(black_box(&rows.bytes)));
    print!("| {} | {:.2} | {} ", rows.name, n as f64 / ours / 1e9, ratio(Some(checked), ours));
    println!("| {} | {} | {} |", ratio(Some(plain), ours), ratio(tiff, ours), ratio(Some(copy), ours));
}

/// What packs row after row: a row and its number, and where its packets go.
type Pack<'a> = &'a dyn Fn(&[u8], usize, &mut [u8]) -> usize;

/// Packs row after row by a call; answers the bytes of all.
fn pack_each(rows: &Rows, out: &mut [u8], call: Pack) -> usize {
    let each = rows.bytes.chunks_exact(rows.row_bytes).enumerate();
    each.fold(0, |at, (k, row)| at + call(black_box(row), k, &mut out[at..]))
}

fn print_packed(rows: &Rows, name: &str, ours: Pack, checked: Option<Pack>, plain: Pack, libtiff: Option<&Libtiff>) {
    let n = rows.bytes.len();
    let most = n / rows.row_bytes * packed_length(rows.row_bytes);
    let mut spaces = [(); 2].map(|()| vec![0; most + PAGE]);
    let [a, b] = spaces.each_mut().map(|space| from_page(space, most));
    let (mut x, mut y) = (0, 0);
    let (ours, plain) = both(|| x = pack_each(rows, a, ours), || y = pack_each(rows, b, plain));
    assert!(a[..x] == b[..y] && x == rows.packed.len() && a[..x] == rows.packed, "{name}, {}", rows.name);
    let checked = checked.map(|call| seconds(|| assert!(pack_each(rows, b, call) == y)));
    let mut memory = Memory::default();
    let tiff = libtiff.map(|lib| {
        seconds(|| lib.write_packed_file(rows.row_bytes, n / rows.row_bytes, black_box(&rows.bytes), &mut memory))
    });
    let copy = seconds(|| b[..n].copy_from_slice(black_box(&rows.bytes)));
    print!("| {name}, {} | {:.2} | {} ", rows.name, n as f64 / ours / 1e9, ratio(checked, ours));
    println!("| {} | {} | {} |", ratio(Some(plain), ours), ratio(tiff, ours), ratio(Some(copy), ours));
}

const HEADS: &str =
    "GB/s of rows | to hand-written Rust that checks first | to such that does not | to libtiff | to memcpy |";

pub fn print(libtiff: Option<&Libtiff>) {
    let kinds = kinds();
    println!("\n| unpack_row, about 1 MiB | {HEADS}\n|---|---|---|---|---|---|");
    for rows in &kinds {
        print_unpacked(rows, libtiff);
    }
    println!("\n| packed, about 1 MiB | {HEADS}\n|---|---|---|---|---|---|");
    for rows in &kinds {
        let lists: Vec<_> = rows.plans.iter().map(lists).collect();
        let ours: Pack = &|row, k, out| write_plan(row, &rows.plans[k], out).unwrap();
        let checked: Pack = &|row, k, out| by_hand::write_plan_checked(row, &lists[k].0, &lists[k].1, out).unwrap();
        let plain: Pack = &|row, k, out| by_hand::write_plan(row, &lists[k].0, &lists[k].1, out);
        print_packed(rows, "write_plan", ours, Some(checked), plain, libtiff);
        if rows.name.starts_with("literals") {
            let ours: Pack = &|row, _, out| pack_row(row, out).unwrap();
            print_packed(rows, "pack_row", ours, None, &|row, _, out| by_hand::pack_row(row, out), libtiff);
        } else {
            let ours: Pack = &|row, _, out| write_plan(row, &Plan::of(row), out).unwrap();
            let plain: Pack = &|row, _, out| by_hand::pack_runs(row, out);
            print_packed(rows, "write_plan with Plan::of", ours, None, plain, libtiff);
        }
    }
}
