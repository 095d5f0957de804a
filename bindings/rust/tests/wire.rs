// Defines tests of what goes over the wire: the names, comments, requests and replies of the wrapper against the tables of docs/WIRE.md, and against a running supervisor.
// Assumes the columns of these tables, and the layout of src/wire.rs.

use oatcastle::{
    AddressPlan, BadReply, Bsu, Command, Fault, Item, ItemResult, Key, LineReader, NotFound, NotSet, OptionBit, Options, ReadEnd,
    ReaderStorage, Reason, Refusal, Reply, ReplyCommand, Request, StartData, StatusBit, Supervisor, SupervisorStorage, LONGEST_DATA,
    LONGEST_FRAME, MOST_PENDING,
};
use std::fmt::{Debug, Display};
use std::num::NonZeroU8;

const PAGE: &str = include_str!("../../../docs/WIRE.md");
const SOURCE: &str = include_str!("../src/wire.rs");

// ---- The page's tables

/// The rows of the table under a heading whose head line begins so.
fn table(heading: &str, head: &str) -> Vec<Vec<&'static str>> {
    let section = PAGE.split_once(&format!("\n{heading}\n")).unwrap_or_else(|| panic!("no {heading}")).1;
    let rows = section.split_once(&format!("\n{head}")).unwrap_or_else(|| panic!("no table {head}")).1;
    let rows = rows.lines().skip(2).take_while(|line| line.starts_with('|'));
    rows.map(|row| row.trim_matches('|').split('|').map(|cell| cell.trim().trim_matches('`')).collect()).collect()
}

/// A number as the page writes it.
fn number(cell: &str) -> u64 {
    let plain = cell.replace(',', "");
    let parsed = plain.strip_prefix("0x").map_or_else(|| plain.parse(), |hex| u64::from_str_radix(hex, 16));
    parsed.unwrap_or_else(|_| panic!("{cell} is no number"))
}

/// The least and the greatest of `N` or `N to M`; none has 0.
fn range(cell: &str) -> (usize, usize) {
    let (least, most) = cell.split_once(" to ").unwrap_or((cell, cell));
    let end = |cell| if cell == "none" { 0 } else { number(cell) as usize };
    (end(least), end(most))
}

/// The widths of the fields of `name width, ..`; none for the rest.
fn widths(cell: &str) -> Vec<Option<usize>> {
    let width = |field: &str| field.rsplit_once(' ').expect("a field").1.parse().ok();
    if cell == "none" {
        Vec::new()
    } else {
        cell.split(", ").map(width).collect()
    }
}

struct Row {
    command: Option<u8>,
    name: &'static str,
    data: &'static str,
    length: &'static str,
    reply: Option<u8>,
    reply_name: &'static str,
    /// Of version 1 and 2: the fields and the lengths.
    forms: [(&'static str, &'static str); 2],
    results: &'static str,
}

fn commands() -> Vec<Row> {
    let code = |cell: &str| (cell != "none").then(|| number(cell) as u8);
    let row = |row: Vec<&'static str>| {
        let [command, name, data, length, reply, reply_name, one, one_length, two, two_length, results] = row[..] else {
            panic!("{row:?}")
        };
        let same = |cell, before| if cell == "same" { before } else { cell };
        let forms = [(one, one_length), (two, same(two_length, one_length))];
        Row { command: code(command), name, data, length, reply: code(reply), reply_name, forms, results }
    };
    let rows: Vec<Row> = table("## Commands", "| Command |").into_iter().map(row).collect();
    assert_eq!(rows.len(), 15);
    rows
}

// ---- Names and comments

/// `KEY_LOOKUP` as the enums spell it.
fn camel(name: &str) -> String {
    name.split('_').map(|word| word[..1].to_string() + &word[1..].to_lowercase()).collect()
}

/// The variants of an enum by number, as name and `Display`.
fn variants<T: Debug + Display>(numbers: impl Iterator<Item = u64>, of: impl Fn(u64) -> Option<T>) -> Vec<(u64, String, String)> {
    numbers.filter_map(|number| of(number).map(|variant| (number, format!("{variant:?}"), variant.to_string()))).collect()
}

fn bytes() -> impl Iterator<Item = u64> {
    0..=255
}

fn bits() -> impl Iterator<Item = u64> {
    (0..64).map(|bit| 1 << bit)
}

/// The comment ahead of each variant of an enum of src/wire.rs, in order.
fn comments(name: &str) -> Vec<&'static str> {
    let table = SOURCE.split_once(&format!("    {name} as ")).expect("an enum").1.split_once("\n}").expect("its end").0;
    let lines: Vec<&str> = table.lines().skip(1).map(str::trim).collect();
    lines.chunks(2).map(|pair| pair[0].strip_prefix("/// ").expect("a comment")).collect()
}

fn sized(fields: &str, length: &str) -> String {
    match (fields, length) {
        ("none", _) => "none".to_string(),
        (_, "1") => format!("{fields} (1 byte)"),
        _ => format!("{fields} ({length} bytes)"),
    }
}

#[test]
fn commands_are_named_and_commented() {
    let rows = commands();
    let asked: Vec<&Row> = rows.iter().filter(|row| row.command.is_some()).collect();
    let named = |row: &Row| (row.command.unwrap().into(), camel(row.name));
    let listed: Vec<(u64, String)> = asked.iter().map(|row| named(row)).collect();
    let variants = variants(bytes(), |number| Command::from_number(number as u8));
    assert_eq!(variants.iter().map(|(number, name, _)| (*number, name.clone())).collect::<Vec<_>>(), listed);
    for (row, comment) in asked.iter().zip(comments("Command")) {
        let reply = row.reply.map_or("No reply.".to_string(), |reply| format!("Reply: {reply:#04x}."));
        assert_eq!(comment, format!("Data: {}. {reply}", sized(row.data, row.length)), "{}", row.name);
        let command = Command::from_number(row.command.unwrap()).unwrap();
        assert_eq!(command.reply().map(ReplyCommand::number), row.reply);
        assert_eq!(command.to_string(), format!("command {:#04x}: {}", command.number(), row.name.to_lowercase().replace('_', " ")));
    }
}

#[test]
fn replies_are_named_and_commented() {
    let mut rows: Vec<Row> = commands().into_iter().filter(|row| row.reply.is_some()).collect();
    rows.sort_by_key(|row| row.reply);
    rows.dedup_by_key(|row| row.reply);
    let listed: Vec<(u64, String)> = rows.iter().map(|row| (row.reply.unwrap().into(), camel(row.reply_name))).collect();
    let variants = variants(bytes(), |number| ReplyCommand::from_number(number as u8));
    assert_eq!(variants.into_iter().map(|(number, name, _)| (number, name)).collect::<Vec<_>>(), listed);
    for (row, comment) in rows.iter().zip(comments("ReplyCommand")) {
        let [one, two] = row.forms;
        let mut wanted = format!("Data: {}.", sized(one.0, one.1));
        if two.0 != "same" {
            wanted += &format!(" In version 2 {} stands ahead of the last field ({} bytes).", two.0, two.1);
        }
        assert_eq!(comment, wanted, "{}", row.reply_name);
    }
}

/// The rows of a table of results, reasons or bits whose name begins so: number, name as in the enums, and meaning up to a semicolon.
fn meanings(rows: Vec<Vec<&'static str>>, columns: [usize; 3], prefix: &str) -> Vec<(u64, String, &'static str)> {
    let named = rows.into_iter().filter_map(|row| {
        let name = row[columns[1]].strip_prefix(prefix)?;
        Some((number(row[columns[0]]), camel(name), row[columns[2]].split(';').next().unwrap_or_default()))
    });
    named.collect()
}

/// Each variant against its row: the number, the name, and the text behind the number.
fn same(variants: Vec<(u64, String, String)>, rows: Vec<(u64, String, &str)>) {
    assert_eq!(variants.len(), rows.len());
    for ((number, name, text), row) in variants.into_iter().zip(rows) {
        let text = text.split_once(": ").expect("a text").1;
        assert_eq!((number, name.as_str(), text), (row.0, row.1.as_str(), row.2));
    }
}

#[test]
fn results_are_named() {
    let rows = |prefix| meanings(table("### Results", "| Reply |"), [1, 2, 3], prefix);
    let but = |rows: Vec<(u64, String, &'static str)>, number| rows.into_iter().filter(|row| row.0 != number).collect::<Vec<_>>();
    same(variants(bytes(), |number| NotFound::from_number(number as u8)), but(rows("LOOKUP_"), 0));
    same(variants(bytes(), |number| NotSet::from_number(number as u8)), but(rows("SET_"), 0));
    same(variants(bytes(), |number| Bsu::from_number(number as u8)), rows("BSU_"));
    let mut items = but(rows("INVENTORY_"), 1);
    items[0].1 = "Found".to_string(); // the page's INVENTORY_ITEM
    same(variants(bytes(), |number| ItemResult::from_number(number as u8)), items);
}

/// The rows of a table of failures: number, name as in the enums, and when; those of one number together, in the page's order.
fn failures(rows: Vec<Vec<&'static str>>, columns: [usize; 3], prefix: &str) -> Vec<(u64, String, String)> {
    let mut listed: Vec<(u64, String, String)> = Vec::new();
    for row in rows {
        let name = camel(row[columns[1]].strip_prefix(prefix).expect("a name"));
        let (number, when) = (number(row[columns[0]]), row[columns[2]]);
        match listed.iter_mut().find(|(other, ..)| *other == number) {
            Some((_, _, text)) => *text = format!("{text}; {when}"),
            None => listed.push((number, name, when.to_string())),
        }
    }
    listed.sort();
    listed
}

/// Each variant against its rows.
fn same_failures(variants: Vec<(u64, String, String)>, rows: Vec<(u64, String, String)>) {
    let texts = |(number, name, text): (u64, String, String)| (number, name, text.split_once(": ").expect("a text").1.to_string());
    assert_eq!(variants.into_iter().map(texts).collect::<Vec<_>>(), rows);
}

#[test]
fn failures_are_named() {
    let reasons = failures(table("## Decode failures", "| Test |"), [1, 2, 3], "REASON_");
    same_failures(variants(bytes(), |number| Reason::from_number(number as u8)), reasons);
    let faults = failures(table("### Image faults", "| Fault |"), [0, 1, 2], "RESTORE_");
    same_failures(variants(bytes(), |number| Fault::from_number(number as u32)), faults);
    let mut link = failures(table("### Refusals", "| Refusal |"), [0, 1, 4], "ROT_");
    for row in &mut link {
        if row.1 == "TooLong" {
            row.1 = "PayloadTooLong".to_string(); // the page's ROT_TOO_LONG
        }
    }
    same_failures(variants(20..=26, |number| Refusal::from_number(number as u32)), link);
}

#[test]
fn bits_are_named() {
    let rows = |prefix| {
        let rows = meanings(table("### Bits", "| Bit |"), [0, 1, 2], prefix);
        rows.into_iter().map(|(bit, name, text)| (1 << bit, name, text)).collect::<Vec<_>>()
    };
    same(variants(bits(), StatusBit::from_number), rows("STATUS_"));
    same(variants(bits(), OptionBit::from_number), rows("OPTION_"));
}

#[test]
fn keys_are_named_and_have_lengths() {
    let rows = table("### Keys", "| Key |");
    same(variants(bytes(), |number| Key::from_number(number as u8)), meanings(rows.clone(), [0, 1, 7], "KEY_"));
    for (row, comment) in rows.iter().zip(comments("Key")) {
        let [key, _, shortest, longest, set, look_up, image, _] = row[..] else { panic!("{row:?}") };
        assert_eq!(comment, format!("{shortest} to {longest} bytes. Set: {set}. Look up: {look_up}. Image: {image}."));
        let key = Key::from_number(number(key) as u8).unwrap();
        let (shortest, longest) = (number(shortest) as usize, number(longest) as usize);
        assert_eq!(key.set_lengths(), (set == "yes").then_some(shortest..=longest));
        for length in [0, shortest.saturating_sub(1), shortest, longest, longest + 1, LONGEST_DATA] {
            let wanted = match set {
                "no" => Some(NotSet::ReadOnly),
                _ if (shortest..=longest).contains(&length) => None,
                _ => Some(NotSet::TooLong),
            };
            assert_eq!(Request::key_set(key, &vec![7; length]).err(), wanted, "{key}, {length} bytes");
        }
    }
}

// ---- Requests

/// One request of each command: the constructor's, and its fields in order.
fn requests() -> Vec<(Request<'static>, Vec<Vec<u8>>)> {
    const HASH: [u8; 32] = *b"0123456789abcdefghijklmnopqrstuv";
    vec![
        (Request::reboot(), vec![]),
        (Request::power_off(), vec![]),
        (Request::bsu(), vec![]),
        (Request::identity(), vec![]),
        (Request::mac(), vec![]),
        (Request::boot_failure(5, b"ramdisk"), vec![vec![5], b"ramdisk".to_vec()]),
        (Request::panic(0xca11, b"called"), vec![vec![0x11, 0xca], b"called".to_vec()]),
        (Request::status(), vec![]),
        (Request::start_acknowledged(), vec![]),
        (Request::alert(), vec![]),
        (Request::image_block(&HASH, 0x0102_0304_0506_0708), vec![HASH.to_vec(), vec![8, 7, 6, 5, 4, 3, 2, 1]]),
        (Request::lookup(Key::WithdrawnKeys, 4096), vec![vec![5], vec![0, 16]]),
        (Request::inventory(0x0102_0304), vec![vec![4, 3, 2, 1]]),
        (Request::key_set(Key::DtraceConf, b"value").unwrap(), vec![vec![4], b"value".to_vec()]),
    ]
}

fn data(request: &Request) -> Vec<u8> {
    [request.head(), request.rest()].concat()
}

/// The one message in these bytes: version, sequence, command and data.
fn message(bytes: &[u8]) -> (u32, u64, u8, Vec<u8>) {
    let mut storage = ReaderStorage::new();
    let mut reader = LineReader::start_in(&mut storage);
    let ReadEnd::Message(message) = reader.read(bytes).end else { panic!("no message") };
    (message.version, message.sequence, message.command, message.data.to_vec())
}

#[test]
fn requests_have_the_page_s_form() {
    let rows = commands();
    let made = requests();
    assert_eq!(made.len() + 1, rows.len());
    for ((request, parts), row) in made.iter().zip(&rows) {
        assert_eq!(Some(request.command()), row.command);
        assert_eq!(data(request), parts.concat(), "{}", row.name);
        let widths = widths(row.data);
        assert_eq!(parts.len(), widths.len(), "{}", row.name);
        assert!(parts.iter().zip(&widths).all(|(part, width)| width.is_none_or(|width| part.len() == width)), "{}", row.name);
        let (least, most) = range(row.length);
        assert!((least..=most).contains(&parts.concat().len()), "{}", row.name);
        let mut room = [0; LONGEST_FRAME];
        for version in [1, 2] {
            let frame = request.write_frame(version, 9, &mut room).unwrap();
            assert_eq!(message(frame), (version, 9, request.command(), parts.concat()));
        }
    }
    assert_eq!(data(&Request::raw(0x55, b"any")), b"any");
    assert_eq!(Request::raw(0x55, b"any").command(), 0x55);
}

/// The supervisor takes exactly the lengths of the page; a request of another length fails for its data.
#[test]
fn the_supervisor_takes_the_requests() {
    let mut storage = SupervisorStorage::new();
    let mut supervisor = Supervisor::start_in(&mut storage, &unit());
    let mut room = [0; MOST_PENDING];
    for (request, _) in requests() {
        let mut frame = [0; LONGEST_FRAME];
        supervisor.receive(&[], request.write_frame(1, 1, &mut frame).unwrap());
        let reply = Command::from_number(request.command()).unwrap().reply().map(ReplyCommand::number);
        let sent = supervisor.take(&mut room);
        assert_eq!((!sent.is_empty()).then(|| message(sent).2), reply, "{request:?}");
    }
    for row in commands().iter().filter(|row| row.command.is_some()) {
        let (least, most) = range(row.length);
        for length in [0, 1, 2, 3, 4, 5, 39, 40, 41, LONGEST_DATA].into_iter().filter(|length| !(least..=most).contains(length)) {
            let mut frame = [0; LONGEST_FRAME];
            supervisor.receive(&[], Request::raw(row.command.unwrap(), &vec![0; length]).write_frame(1, 1, &mut frame).unwrap());
            let (version, _, command, data) = message(supervisor.take(&mut room));
            assert_eq!(Reply::decode(version, command, &data), Ok(Reply::DecodeFailure(Reason::Data)), "{}, {length} bytes", row.name);
        }
    }
}

#[test]
fn a_request_shows_no_data() {
    let request = Request::key_set(Key::Passphrase, b"a passphrase").unwrap();
    assert_eq!(format!("{request:?}"), "Request { command: 16, length: 13, .. }");
}

// ---- Replies

/// A seeded generator (splitmix64).
struct Random(u64);

impl Random {
    fn next(&mut self) -> u64 {
        self.0 = self.0.wrapping_add(0x9e37_79b9_7f4a_7c15);
        let mixed = (self.0 ^ self.0 >> 30).wrapping_mul(0xbf58_476d_1ce4_e5b9);
        let mixed = (mixed ^ mixed >> 27).wrapping_mul(0x94d0_49bb_1331_11eb);
        mixed ^ mixed >> 31
    }

    fn below(&mut self, limit: usize) -> usize {
        (self.next() % limit as u64) as usize
    }

    fn bytes(&mut self, length: usize) -> Vec<u8> {
        (0..length).map(|_| self.next() as u8).collect()
    }
}

/// What a reply means, back as data: version 2 where a value has an edition.
fn encoded(reply: &Reply) -> (u32, Vec<u8>) {
    let mut version = 1;
    let data = match *reply {
        Reply::Acknowledged => vec![],
        Reply::DecodeFailure(reason) => vec![reason.number()],
        Reply::Bsu(bsu) => vec![bsu.number()],
        Reply::Identity(identity) => [&identity.model[..], &identity.revision.to_le_bytes(), identity.serial].concat(),
        Reply::Mac(plan) => [&plan.base[..], &plan.count.to_le_bytes(), &[plan.stride]].concat(),
        Reply::Status(status) => [status.status.to_le_bytes(), status.options.to_le_bytes()].concat(),
        Reply::Alert(alert) => alert.map_or(vec![0], |alert| [&[alert.action.get()], alert.text].concat()),
        Reply::ImageBlock(block) => block.to_vec(),
        Reply::KeyLookup(Err(result)) => vec![result.number()],
        Reply::KeyLookup(Ok(found)) => {
            let edition = found.edition.map(u32::to_le_bytes);
            version = 1 + u32::from(edition.is_some());
            [&[0][..], edition.as_ref().map_or(&[], |edition| &edition[..]), found.value].concat()
        }
        Reply::Inventory(None) => [&[1][..], &[0; 33]].concat(),
        Reply::Inventory(Some(item)) => [&[item.result.number()][..], &item.name, &[item.kind], item.data].concat(),
        Reply::KeySet(result) => vec![result.map_or_else(NotSet::number, |()| 0)],
        _ => panic!("{reply:?} is none of these"),
    };
    (version, data)
}

/// Whether the page allows these data for a reply of a version.
fn allowed(row: &Row, version: u32, data: &[u8]) -> bool {
    let (least, most) = range(row.forms[version as usize - 1].1);
    let (first, last) = if row.results == "none" { (0, 255) } else { range(row.results) };
    let result = data.first().copied().unwrap_or(0);
    let rest = data.len().saturating_sub(1);
    (least..=most).contains(&data.len())
        && (first..=last).contains(&result.into())
        && match row.reply_name {
            "ALERT" => result != 0 || rest == 0,
            "KEY_LOOKUP" => {
                if result == 0 {
                    version == 1 || rest >= 4
                } else {
                    rest == 0
                }
            }
            "INVENTORY" => result == 0 || rest == 33 && (result != 1 || data[1..] == [0; 33]),
            _ => true,
        }
}

/// Data of a reply that may be right: of a length in or near the page's, with a result in or near them.
fn any_data(random: &mut Random, row: &Row, version: u32) -> Vec<u8> {
    let (least, most) = range(row.forms[version as usize - 1].1);
    let lengths = [least, least + 1, most, most + 1, least.saturating_sub(1), 1, 5, 34, least + random.below(most - least + 1)];
    let length = lengths[random.below(lengths.len())];
    let mut data = random.bytes(length);
    if random.below(3) == 0 {
        data.fill(0);
        let place = [length.wrapping_sub(1), random.below(3 * length + 1)][random.below(2)];
        data.get_mut(place).into_iter().for_each(|byte| *byte = 1);
    }
    if let Some(result) = data.first_mut().filter(|_| row.results != "none" || random.below(4) == 0) {
        *result = (range(row.results.split(" to ").next().unwrap()).0 as u8).wrapping_sub(1).wrapping_add(random.below(8) as u8);
    }
    data
}

/// Every reply of the page, on random data: decoded exactly where the page allows them, and then they mean these bytes.
#[test]
fn replies_have_the_page_s_form() {
    let mut random = Random(1);
    for row in commands().iter().filter(|row| row.reply.is_some()) {
        let mut taken = 0;
        for round in 0..8000 {
            let version = 1 + round % 2;
            let data = any_data(&mut random, row, version);
            let reply = Reply::decode(version, row.reply.unwrap(), &data);
            assert_eq!(reply.is_ok(), allowed(row, version, &data), "{}, version {version}: {data:02x?} is {reply:?}", row.reply_name);
            match reply {
                Ok(reply) => {
                    let (least, bytes) = encoded(&reply);
                    assert_eq!((&bytes, least <= version), (&data, true));
                    taken += 1;
                }
                Err(fault) => assert!(matches!(fault, BadReply::Length | BadReply::Value)),
            }
        }
        assert!((400..7900).contains(&taken), "{}: {taken} of 8000 taken", row.reply_name);
    }
}

#[test]
fn any_bytes_are_decoded_or_refused() {
    let mut random = Random(2);
    for _ in 0..300_000 {
        let length = [0, 1, 2, 9, 16, 26, 34, 98, 300, 4106][random.below(10)];
        let length = random.below(length + 1);
        let (version, command) = (random.below(4) as u32, if random.below(8) == 0 { random.next() as u8 } else { random.below(14) as u8 });
        let data = random.bytes(length);
        let reply = Reply::decode(version, command, &data);
        match (version, ReplyCommand::from_number(command)) {
            (0 | 3, _) => assert_eq!(reply, Err(BadReply::Version)),
            (_, None) => assert_eq!(reply, Err(BadReply::Command)),
            _ => assert!(!matches!(reply, Err(BadReply::Version | BadReply::Command))),
        }
    }
    let faults = [BadReply::Version, BadReply::Command, BadReply::Length, BadReply::Value].map(|fault| fault.to_string());
    assert!(faults.iter().all(|text| text.starts_with("no reply: ")));
}

// ---- A running supervisor

const IMAGE: [u8; 5000] = [0xa5; 5000];
const HASH: [u8; 32] = [5; 32];

fn unit() -> StartData {
    StartData::new(Bsu::B)
        .with_identity(*b"model-12345", 7, *b"serial-0001")
        .with_mac(AddressPlan { base: [1, 2, 3, 4, 5, 6], count: 8, stride: 9 })
        .with_hash(HASH)
        .with_image_id(b"image")
        .with_item(Item { result: ItemResult::Found, name: [6; 32], kind: 4, data: b"data" })
        .with_item(Item { result: ItemResult::Absent, name: [7; 32], kind: 5, data: b"kept back" })
}

/// A supervisor, and the number of the last request to it.
struct Far<'s> {
    supervisor: Supervisor<'s>,
    sequence: u64,
}

impl Far<'_> {
    /// The reply to a request of a version, as it shows itself.
    fn reply(&mut self, version: u32, request: &Request) -> String {
        self.sequence += 1;
        let (mut frame, mut room) = ([0; LONGEST_FRAME], [0; MOST_PENDING]);
        self.supervisor.receive(&IMAGE, request.write_frame(version, self.sequence, &mut frame).unwrap());
        let (version, _, command, data) = message(self.supervisor.take(&mut room));
        format!("{:?}", Reply::decode(version, command, &data).unwrap())
    }
}

#[test]
fn a_supervisor_s_replies_are_decoded() {
    let mut storage = SupervisorStorage::new();
    let mut far = Far { supervisor: Supervisor::start_in(&mut storage, &unit()), sequence: 0 };
    far.supervisor.set_options(Options::NONE.with(OptionBit::NetBoot));
    let identity = format!("Identity(Identity {{ model: {:?}, revision: 7, serial: {:?} }})", b"model-12345", b"serial-0001");
    for version in [1, 2] {
        let value = |edition: u32, value: &[u8]| {
            let edition = (version == 2).then_some(edition);
            format!("KeyLookup(Ok(Value {{ edition: {edition:?}, value: {value:?} }}))")
        };
        let mut replies = |request: Request, wanted: &str| assert_eq!(far.reply(version, &request), wanted, "{request:?}");
        replies(Request::bsu(), "Bsu(B)");
        replies(Request::identity(), &identity);
        replies(Request::mac(), "Mac(AddressPlan { base: [1, 2, 3, 4, 5, 6], count: 8, stride: 9 })");
        replies(Request::lookup(Key::Ping, 4), &value(0, b"pong"));
        replies(Request::lookup(Key::Ping, 3), "KeyLookup(Err(TooLong))");
        replies(Request::lookup(Key::WithdrawnKeys, 3), "KeyLookup(Err(NoValue))");
        replies(Request::lookup(Key::Passphrase, 3), "KeyLookup(Err(SetOnly))");
        replies(Request::raw(0x0e, &[7, 0, 1]), "KeyLookup(Err(BadKey))");
        replies(
            Request::inventory(0),
            &format!("Inventory(Some(Item {{ result: Found, name: {:?}, kind: 4, data: {:?} }}))", [6; 32], b"data"),
        );
        replies(Request::inventory(1), &format!("Inventory(Some(Item {{ result: Absent, name: {:?}, kind: 5, data: [] }}))", [7; 32]));
        replies(Request::inventory(2), "Inventory(None)");
        replies(Request::image_block(&HASH, 0), &format!("ImageBlock({:?})", &IMAGE[..4096]));
        replies(Request::image_block(&HASH, 5000), "ImageBlock([])");
        replies(Request::panic(1, b"x"), "Acknowledged");
        replies(Request::key_set(Key::EtcSystem, b"").unwrap(), "KeySet(Ok(()))");
        replies(Request::lookup(Key::EtcSystem, 4), &value(version, b""));
        replies(Request::raw(0x10, &[2]), "KeySet(Err(ReadOnly))");
        replies(Request::raw(0x10, &[9]), "KeySet(Err(BadKey))");
        replies(Request::raw(0x55, &[]), "DecodeFailure(Length)");
    }
}

#[test]
fn a_supervisor_s_status_and_alerts_are_decoded() {
    let mut storage = SupervisorStorage::new();
    let mut far = Far { supervisor: Supervisor::start_in(&mut storage, &unit()), sequence: 0 };
    far.supervisor.set_options(Options::NONE.with(OptionBit::NetBoot));
    for version in [1, 2] {
        far.supervisor.restart(&unit());
        far.supervisor.set_options(Options::NONE.with(OptionBit::NetBoot).with(OptionBit::Verbose));
        far.supervisor.post(NonZeroU8::MAX, b"fan").unwrap();
        let mut replies = |request: Request, wanted: &str| assert_eq!(far.reply(version, &request), wanted, "{request:?}");
        replies(Request::status(), "Status(Status { status: 3, options: 384, set_bits: 2 })");
        replies(Request::alert(), &format!("Alert(Some(Alert {{ action: 255, text: {:?} }}))", b"fan"));
        replies(Request::alert(), "Alert(None)");
        replies(Request::start_acknowledged(), "Acknowledged");
        replies(Request::status(), "Status(Status { status: 0, options: 384, set_bits: 0 })");
    }
    let Ok(Reply::Status(status)) = Reply::decode(1, 6, &[2, 0, 0, 0, 0, 0, 0, 0x80, 0, 1, 0, 0, 0, 0, 0, 0]) else { panic!("no status") };
    assert_eq!([StatusBit::Restarted, StatusBit::Alerts].map(|bit| status.has(bit)), [false, true]);
    assert_eq!([OptionBit::Verbose, OptionBit::Kmdb].map(|bit| status.has_option(bit)), [true, false]);
    assert_eq!(status.set_bits, 2);
}
