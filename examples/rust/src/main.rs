//! Compiles the text on standard input, says how large its file is, and prints it back as a text.
//! With `--icu` both texts have ICU's form; with `--json` it is printed back as JSON.
//! Where paths are given, what stands at each is printed alone: a string or a number as it is, a
//! binary in hexadecimal, and of all else its kind and size, with the keys of a table.
//! `--zone FILE NAME MOMENT..` prints the offsets of a time zone out of ICU's file of zones.
//! `--offset FILE NAME MOMENT..` looks them up by hand, and `--walk FILE` prints each resource.
mod offset;
mod opened;
mod resb;

use opened::{Opened, Resource};
use resb::{Form, Wanted};
use std::io::Read;
use std::process::ExitCode;

/// The most bytes that reading a text may make, and that a tree may take.
const LIMIT: u64 = 1_000_000;

/// The name under which a text is printed.
const NAME: &str = "bundle";

/// What is wanted of a text or a file in this form.
fn wanted(form: Form) -> Wanted<'static> {
    Wanted { form, limit: LIMIT, pool: &[], name: NAME }
}

/// Compiles a text of this form, says how large its file is, and prints it back in another form.
fn show(form: Form, text: &[u8], shown: Form) -> Result<bool, resb::Error> {
    let file = resb::compile(text, wanted(form))?;
    let measured = resb::check(resb::Input { file: &file, pool: &[] })?;
    let (resources, entries) = (measured.resources, measured.entries);
    println!("{} bytes, {resources} resources, {entries} entries", file.len());
    print!("{}", resb::dump(&file, wanted(shown))?);
    Ok(true)
}

/// What is printed of what stands at a path.
fn said(opened: &Opened<'_>, path: &str) -> Result<String, u32> {
    let found = opened.find(opened.root(), path)?;
    if let Ok(text) = opened.string(found) {
        return Ok(text);
    }
    if let Ok(value) = opened.integer(found) {
        return Ok(value.to_string());
    }
    if let Ok(bytes) = opened.bytes(found) {
        return Ok(bytes.iter().map(|byte| format!("{byte:02x}")).collect());
    }
    let (kind, size) = opened.kind(found)?;
    let mut line = format!("{}, size {size}", resb::kind_name(kind));
    if kind == resb::TABLE {
        for number in 0..size {
            line = format!("{line}\n  {}", opened.key(found, number)?);
        }
    }
    Ok(line)
}

/// Prints what stands at each path, and gives whether something does at all of them.
fn show_paths(text: &[u8], paths: &[String]) -> Result<bool, resb::Error> {
    let file = resb::compile(text, wanted(Form::Plain))?;
    let opened = Opened::new(resb::Input { file: &file, pool: &[] })?;
    let mut is_all = true;
    for path in paths {
        match said(&opened, path) {
            Ok(line) => println!("{line}"),
            Err(status) => {
                println!("fault {status}");
                is_all = false;
            }
        }
    }
    Ok(is_all)
}

/// Prints the offset of a zone at each moment, and gives whether it is told at all of them.
fn show_zone(file: &[u8], zone: &str, moments: &[String]) -> bool {
    let mut is_all = true;
    for moment in moments {
        let moment = moment.parse().expect("a moment in seconds since 1970");
        match resb::zone_offset(file, zone, moment) {
            Ok(offset) => println!("{offset}"),
            Err(e) => {
                println!("{e}");
                is_all = false;
            }
        }
    }
    is_all
}

/// Prints the offset of a zone at each moment by its transitions.
fn show_offsets(file: &[u8], zone: &str, moments: &[String]) -> Result<(), String> {
    let opened = Opened::new(resb::Input { file, pool: &[] }).map_err(|e| e.to_string())?;
    let zone = offset::find_zone(&opened, zone).map_err(|status| format!("fault {status}"))?;
    for moment in moments {
        let moment = moment.parse().expect("a moment in seconds since 1970");
        match offset::offset_at(&opened, zone, moment) {
            Ok(offset) => println!("{offset}"),
            Err(status) => return Err(format!("fault {status}")),
        }
    }
    Ok(())
}

/// The value of what has no members.
fn value_of(opened: &Opened<'_>, resource: Resource) -> String {
    if let Ok(text) = opened.string(resource) {
        return format!(" {text}");
    }
    if let Ok(value) = opened.integer(resource) {
        return format!(" {value}");
    }
    if let Ok(bytes) = opened.bytes(resource) {
        return format!(" {}", bytes.iter().map(|b| format!("{b:02x}")).collect::<String>());
    }
    match opened.vector(resource) {
        Ok(numbers) => numbers.map(|n| format!(" {n}")).collect(),
        Err(_) => String::new(),
    }
}

/// Prints each resource, with two blanks for each level.
fn walk(opened: &Opened<'_>) -> Result<(), u32> {
    println!("{} resources", opened.count());
    let mut rest = vec![(opened.root(), 0, String::new())];
    while let Some((resource, level, key)) = rest.pop() {
        let (kind, size) = opened.kind(resource)?;
        let (name, value) = (resb::kind_name(kind), value_of(opened, resource));
        println!("{:1$}{key}{name}{value}", "", 2 * level);
        if !matches!(name, "table" | "array") {
            continue;
        }
        for number in (0..size).rev() {
            let key = opened.key(resource, number).map_or(String::new(), |key| format!("{key}: "));
            rest.push((opened.member(resource, number)?, level + 1, key));
        }
    }
    Ok(())
}

/// Prints what is wrong, if anything is, and gives the status for the system.
fn finished(answer: Result<(), String>) -> ExitCode {
    if let Err(said) = &answer {
        println!("{said}");
    }
    ExitCode::from(u8::from(answer.is_err()))
}

fn main() -> ExitCode {
    let words: Vec<String> = std::env::args().skip(1).collect();
    if let [option, name, zone, moments @ ..] = words.as_slice() {
        if option == "--zone" || option == "--offset" {
            let file = std::fs::read(name).expect("a file of zones");
            if option == "--offset" {
                return finished(show_offsets(&file, zone, moments));
            }
            return ExitCode::from(u8::from(!show_zone(&file, zone, moments)));
        }
    }
    if let [option, name] = words.as_slice() {
        if option == "--walk" {
            let file = std::fs::read(name).expect("a file");
            return finished(match Opened::new(resb::Input { file: &file, pool: &[] }) {
                Ok(opened) => walk(&opened).map_err(|status| format!("fault {status}")),
                Err(e) => Err(e.to_string()),
            });
        }
    }
    let mut text = Vec::new();
    std::io::stdin().read_to_end(&mut text).expect("standard input");
    let answer = match words.first().map(String::as_str) {
        None => show(Form::Plain, &text, Form::Plain),
        Some("--icu") => show(Form::Icu, &text, Form::Icu),
        Some("--json") => show(Form::Plain, &text, Form::Json),
        Some(_) => show_paths(&text, &words),
    };
    match answer {
        Ok(true) => ExitCode::SUCCESS,
        Ok(false) => ExitCode::FAILURE,
        Err(e) => {
            if e.has_place() {
                let (line, column) = resb::location(&text, e.place);
                eprint!("{line}:{column}: ");
            }
            eprintln!("{e}");
            ExitCode::FAILURE
        }
    }
}
