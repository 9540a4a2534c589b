//! Every refusal in words, and the files that call for it.
mod common;
use common::{entry, entry4, extension, file, over};
use sparrowpivot::{Error, Index, Refusal, Stage, WriteOptions};

/// All refusals with what they carry and say.
const ALL: [(Refusal, Option<u64>, &str); 17] = [
    (Refusal::ShortFile, None, "refused 1: the file has under 32 bytes"),
    (Refusal::NoSignature, None, "refused 2: the file does not begin with \"DIRC\""),
    (Refusal::OtherVersion { version: 5 }, Some(5), "refused 3: the version is 5, not 2, 3 or 4"),
    (Refusal::BadTrailer, None, "refused 4: the last 20 bytes are neither zeros nor the SHA-1 of the rest"),
    (
        Refusal::NotSpelled { entry: 1 },
        Some(1),
        "refused 5: entry 1 (counted from 0) is not spelled as the format asks",
    ),
    (Refusal::NoEntryRoom { entry: 7 }, Some(7), "refused 6: there is no room for entry 7 (counted from 0)"),
    (Refusal::NotFilled { place: 76 }, Some(76), "refused 7: the extensions do not fill their space, from byte 76 on"),
    (
        Refusal::Mandatory { signature: *b"link" },
        Some(1818848875),
        "refused 8: the extension \"link\" (1818848875) must be understood, and is not",
    ),
    (Refusal::TooDeep, None, "refused 9: the tree is deeper than 512 levels"),
    (Refusal::NoNodeRoom, None, "refused 10: there is no room for the next node of the tree"),
    (Refusal::NoStage, None, "refused 11: there is no stage above 3"),
    (
        Refusal::PathOutside { record: 7 },
        Some(7),
        "refused 12: the path of record 7 (counted from 0) is not in its store",
    ),
    (Refusal::NotAfter { entry: 1 }, Some(1), "refused 13: entry 1 (counted from 0) is not after the one before"),
    (Refusal::ShortOutput { size: 160 }, Some(160), "refused 14: the output is too short: 160 bytes are needed"),
    (Refusal::TooLarge, None, "refused 15: there are over 4294967295 records, or bytes before the place of EOIE"),
    (Refusal::NotProper, None, "refused 16: the nodes are no proper tree"),
    (Refusal::Other { number: 17, value: 3 }, Some(3), "refused 17: for a reason that is not known here, with value 3"),
];

#[test]
fn each_says_its_number_and_value() {
    for (number, (refusal, value, words)) in (1..).zip(ALL) {
        assert_eq!((refusal.number(), refusal.value(), refusal.to_string()), (number, value, words.to_string()));
        assert_eq!(Error::from(refusal).to_string(), words);
    }
}

/// The numbers are those of the C header, all of them.
#[test]
fn the_header_has_the_same_numbers() {
    let header = std::fs::read_to_string("../include/sparrowpivot.h").unwrap();
    let named = |line: &str| {
        line.trim().strip_prefix("SPARROWPIVOT_")?.split_once(" = ")?.1.split([',', ' ']).next()?.parse().ok()
    };
    let refusals =
        header.lines().skip_while(|line| *line != "enum sparrowpivot_refusal {").take_while(|line| *line != "};");
    let numbers: Vec<u32> = refusals.filter_map(named).collect();
    assert_eq!(numbers, (1..=16).collect::<Vec<u32>>());
}

/// A tree in which each folder has one other, so many levels deep.
fn deep(levels: usize) -> Vec<u8> {
    [b"\0-1 1\n".repeat(levels - 1), b"\0-1 0\n".to_vec()].concat()
}

/// The file is refused in these words, by the crate and by the command.
fn refused(bytes: &[u8], words: &str) {
    let why = Index::from_bytes(bytes.to_vec()).unwrap_err();
    assert_eq!(why.to_string(), words);
    let output = over(&["list", "-"], bytes, 1);
    assert_eq!(String::from_utf8(output.stderr).unwrap(), format!("sparrowpivot: standard input: {words}\n"));
}

#[test]
fn files_that_cannot_be_read() {
    let a = entry(b"a");
    let words = |number: usize| ALL[number - 1].2;
    refused(&file(2, 0, &[])[..31], words(1));
    refused(&[0; 32], words(2));
    refused(&file(5, 0, &[]), words(3));
    refused(&[&file(2, 0, &[])[..12], &[1; 20]].concat(), words(4));
    refused(&file(2, 2, &[&a, &a[..63]]), words(5));
    refused(&file(2, 1, &[&a, b"ABCD"]), words(7));
    refused(&file(2, 0, &[&extension(b"link", b"")]), words(8));
    refused(&file(2, 0, &[&extension(b"sdir", b"\0")]), "refused 8: the extension \"sdir\" (1935960434) is not empty");
    refused(
        &file(2, 0, &[&extension(b"a\xff\n\"", b"")]),
        "refused 8: the extension \"a\\xff\\n\\\"\" (1644104226) must be understood, and is not",
    );
    refused(&file(2, 0, &[&extension(b"TREE", &deep(513))]), words(9));
    for levels in 511..=512 {
        let bytes = file(2, 0, &[&extension(b"TREE", &deep(levels))]);
        let index = Index::from_bytes(bytes.clone()).unwrap();
        assert_eq!(index.tree().unwrap().len(), levels);
        assert_eq!(index.write(WriteOptions { zero_trailer: true, ..WriteOptions::default() }).unwrap(), bytes);
    }
}

/// An extension whose first byte is none of A to Z must be understood, and its signature is told so that it can be read.
#[test]
fn stray_signatures() {
    let told = |signature: &[u8; 4], words: &str| {
        let number = u32::from_be_bytes(*signature);
        let refusal = format!("refused 8: the extension \"{words}\" ({number}) must be understood, and is not");
        refused(&file(2, 0, &[&extension(signature, b"")]), &refusal);
    };
    told(b"\0\0\0\0", "\\x00\\x00\\x00\\x00");
    told(b"\xff\xff\xff\xff", "\\xff\\xff\\xff\\xff");
    told(b"\0\xffab", "\\x00\\xffab");
    told(b"0abc", "0abc");
    told(b"@abc", "@abc");
    told(b"[abc", "[abc");
    told(b"_abc", "_abc");
    for capital in [b"Aabc", b"Zabc"] {
        assert!(Index::from_bytes(file(2, 0, &[&extension(capital, b"x")])).is_ok());
    }
}

#[test]
fn order_and_stage() {
    let index = Index::from_bytes(file(2, 2, &[&entry(b"a"), &entry(b"a")])).unwrap();
    assert_eq!(index.check().unwrap_err(), ALL[12].0);
    assert_eq!(index.find("a", Stage::Merged).unwrap_err(), ALL[12].0);
    assert_eq!(Stage::try_from(4).unwrap_err(), ALL[10].0);
}

/// A count that the file cannot hold costs no memory.
#[test]
fn a_count_of_ones() {
    refused(&file(2, u32::MAX, &[]), "refused 5: entry 0 (counted from 0) is not spelled as the format asks");
    refused(&file(4, u32::MAX, &[]), "refused 5: entry 0 (counted from 0) is not spelled as the format asks");
}

/// Paths of version 4 that take much more room than the file: room is made, up to the limit that is set.
#[test]
fn room_for_paths_is_made() {
    let long = vec![b'p'; 50_000];
    let more = (0..100u8).map(|i| entry4(u8::from(i > 0), &[i + 1]));
    let entries: Vec<u8> = std::iter::once(entry4(0, &long)).chain(more).flatten().collect();
    let bytes = file(4, 101, &[&entries]);
    let needed = 50_000 + 100 * 50_001;
    assert!(needed > 40 * bytes.len());
    let index = Index::from_bytes(bytes.clone()).unwrap();
    assert_eq!(index.entries().map(|entry| entry.path.len()).sum::<usize>(), needed);
    assert_eq!(index.entry(100).unwrap().path, [long.as_slice(), &[100]].concat());
    assert!(Index::from_bytes_limited(bytes.clone(), needed).is_ok());
    let limited = Index::from_bytes_limited(bytes, needed - 1);
    assert!(matches!(limited, Err(Error::OutOfMemory { .. })), "{limited:?}");
}

/// More folders than the number of entries suggests: room is made.
#[test]
fn room_for_nodes_is_made() {
    let names: Vec<u8> = (0..3000).flat_map(|i| format!("{i}\0-1 0\n").into_bytes()).collect();
    let tree = extension(b"TREE", &[b"\0-1 3000\n".as_slice(), &names].concat());
    let index = Index::from_bytes(file(2, 0, &[&tree])).unwrap();
    let tree = index.tree().unwrap();
    assert_eq!((tree.len(), tree.path(3000)), (3001, b"2999".to_vec()));
    assert_eq!((tree.nodes().len(), tree.nodes().next_back()), (3001, tree.node(3000)));
}
