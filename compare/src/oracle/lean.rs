//! `lean FILE NAME BODY [NAME BODY ..]`: prints a Rust source with the body of each
//! named function replaced. Fails unless each name is found exactly once.

mod tokens;

fn main() {
    let args: Vec<String> = std::env::args().skip(1).collect();
    match args.split_first() {
        Some((file, pairs)) if pairs.len().is_multiple_of(2) => match leaned(file, pairs) {
            Ok(source) => print!("{source}"),
            Err(why) => fail(&format!("{file}: {why}")),
        },
        _ => fail("lean FILE NAME BODY [NAME BODY ..]"),
    }
}

fn fail(why: &str) -> ! {
    eprintln!("{why}");
    std::process::exit(1);
}

fn leaned(file: &str, pairs: &[String]) -> Result<String, String> {
    let mut source = std::fs::read_to_string(file).map_err(|e| e.to_string())?;
    for pair in pairs.chunks(2) {
        let tokens = tokens::tokens(&source);
        let body = tokens::body(&tokens, &pair[0])?;
        let bytes = tokens[body.start].at..tokens[body.end - 1].range().end;
        source.replace_range(bytes, &format!("{{ {} }}", pair[1]));
    }
    Ok(source)
}
