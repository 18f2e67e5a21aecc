//! What the program `run_regions` must print: the original's regions, and the refusals by the rules' table.
use crate::ours::Writing;
use crate::plan::header;
use crate::record::{NO_WIDTH, answered, given, hex, lines, numbers, sequence, shifted, worked};
use crate::write::{by_table, most, parts};
use original::{Plan, jenkins_lookup3, planned};

/// What a call is given besides the sizes: how many places and bytes, two addresses, their width.
#[derive(Clone, Copy)]
struct Call {
    places: (usize, usize),
    object_bytes: usize,
    region_bytes: usize,
    region_at: u64,
    header_at: u64,
    w: u8,
}

/// A call with more places and region bytes than are needed, at addresses whose bytes differ.
fn usual(object_bytes: u64, w: u8) -> Call {
    let low = |address: u64| match w {
        2 | 4 => address & most(w),
        _ => address,
    };
    Call {
        places: (64, 64),
        object_bytes: object_bytes as usize,
        region_bytes: 350_000,
        region_at: low(0x0102_0304_0506_0708),
        header_at: low(0x1122_3344_5566_7788),
        w,
    }
}

/// A region: its lookup3, its first bytes, and its root if that is an indirect block, which is then the last of
/// these.
fn written(plan: &Plan, region: &[u8]) -> String {
    let [_, _, rows, root, _, allocated, ..] = plan.totals;
    let (sum, first) = (jenkins_lookup3(region), hex(&region[..40]));
    let line = format!("  region {sum:08x} begins {first}\n");
    if rows == 0 {
        return line;
    }
    let root = &region[root as usize..region.len() - allocated as usize];
    format!("{line}  root {}\n", hex(root))
}

/// What is printed of a call. Every lent byte is 0xA5 before it.
fn case(name: &str, sizes: &[u64], call: Call) -> String {
    let objects = sequence(call.object_bytes);
    let writing = Writing {
        sizes,
        objects: &objects,
        offset_size: call.w,
        region_at: call.region_at,
        header_at: call.header_at,
    };
    let (places, bytes, w) = (call.places, call.region_bytes, call.w);
    let (answer, size, written) = match by_table(&writing, places.0, places.1, bytes) {
        Some(refusal) => (Err(refusal), 0, String::new()),
        None => {
            let planned = planned(sizes, w).expect("the heap space is far");
            let objects = parts(sizes, &objects);
            let region = planned.serialize(&objects, call.region_at, call.header_at);
            let plan = planned.told(call.region_at);
            let written = written(&plan, &region);
            (Ok(plan), region.len(), written)
        }
    };
    format!(
        "{}, object bytes {}, region bytes {bytes} at {:#x}, header at {:#x}{}; untouched {:08x}\n{written}",
        given(name, sizes, w),
        call.object_bytes,
        call.region_at,
        call.header_at,
        answered(&answer, places),
        jenkins_lookup3(&vec![0xA5; bytes - size])
    )
}

fn line(name: &str, sizes: &[u64], w: u8) -> String {
    case(name, sizes, usual(sizes.iter().sum(), w))
}

/// Four sizes that fill row 7, then small ones, which an indirect block of row 8 takes, and one for which only
/// that of row 9 has room.
fn nested() -> String {
    let small = numbers().take(39).skip(4).map(|x| x / 65_536 % 2048);
    let sizes: Vec<u64> = [65_514; 4]
        .into_iter()
        .chain(small)
        .chain([20_000])
        .collect();
    line("40 nested", &sizes, 8)
}

/// Lists that are too short, and lists that just hold the plan.
fn short_lists() -> String {
    let case = |name, sizes: &[u64], places| {
        let call = usual(sizes.iter().sum(), 8);
        case(name, sizes, Call { places, ..call })
    };
    let sizes = [10, 20, 30];
    [
        case("short offsets", &sizes, (2, 3)),
        case("no offsets", &sizes, (0, 3)),
        case("short blocks", &sizes, (3, 1)),
        case("both short", &sizes, (2, 1)),
        case("exact lists", &sizes, (3, 3)),
        case("one block", &[], (0, 64)),
        case("no block", &[], (0, 0)),
    ]
    .concat()
}

/// Heap 4 with other numbers of bytes.
fn other_bytes() -> String {
    let case = |name, object_bytes, region_bytes| {
        let call = usual(object_bytes, 8);
        case(
            name,
            &[1002, 1],
            Call {
                region_bytes,
                ..call
            },
        )
    };
    [
        case("an object byte fewer", 1002, 2102),
        case("an object byte more", 1004, 2102),
        case("no object bytes", 0, 2102),
        case("a region byte fewer", 1003, 2101),
        case("no region bytes", 1003, 0),
        case("exact region", 1003, 2102),
    ]
    .concat()
}

/// Two blocks and a root of one row at other addresses.
fn at(name: &str, region_at: u64, header_at: u64, w: u8) -> String {
    let sizes = [1024 - header(w), 1];
    let call = Call {
        region_bytes: 2102,
        region_at,
        header_at,
        ..usual(sizes.iter().sum(), w)
    };
    case(name, &sizes, call)
}

/// Around a width's undefined address.
fn addresses(w: u8) -> String {
    let undefined = most(w);
    let size = original::plans(&[1024 - header(w), 1], w).expect("the heap space is far");
    let last = undefined - size;
    [
        at("last region address", last, 0, w),
        at("region past the end", last + 1, 0, w),
        at("last header address", 0, undefined - 1, w),
        at("undefined header", 0, undefined, w),
        at("undefined region", u64::MAX, 0, w),
    ]
    .concat()
}

/// Addresses that are 0 in as many bytes as the width has.
fn too_wide(w: u8) -> String {
    let address = most(w) + 1;
    at("wide region address", address, 0, w) + &at("wide header address", 0, address, w)
}

/// Heap 4 with everything wrong; then from call to call the first cause is mended.
fn order() -> String {
    let (large, sizes) = ([1002, 65_536], [1002, 1]);
    let mut call = Call {
        places: (0, 1),
        object_bytes: 1002,
        region_bytes: 2101,
        region_at: u64::MAX,
        header_at: u64::MAX,
        w: 3,
    };
    let mut out = case("all wrong", &large, call);
    call.w = 8;
    out += &case("right width", &large, call);
    call.places.0 = 2;
    out += &case("right offsets", &large, call);
    call.places.1 = 2;
    out += &case("right blocks", &large, call);
    out += &case("right sizes", &sizes, call);
    call.object_bytes = 1003;
    out += &case("right objects", &sizes, call);
    call.region_bytes = 2102;
    out += &case("right region bytes", &sizes, call);
    call.header_at = 0;
    out += &case("right header address", &sizes, call);
    call.region_at = 0;
    out + &case("all right", &sizes, call)
}

pub fn regions() -> String {
    let first =
        "The original Rust's answers (refusals: by the rules' table), from compare/run --record\n";
    [
        first,
        &lines(worked(), 8, line),
        &[2, 4].map(|w| lines(shifted(w), w, line)).concat(),
        &nested(),
        &NO_WIDTH.map(|(sizes, w)| line("width", sizes, w)).concat(),
        &short_lists(),
        &other_bytes(),
        &[2, 4, 8].map(addresses).concat(),
        &[2, 4].map(too_wide).concat(),
        &order(),
    ]
    .concat()
}
