//! `words_to_text FILE`: prints the text form of a state's words, by the second reader. The file holds the words low byte first,
//! or, with `--text`, in hexadecimal with white space between.

use std::process::ExitCode;

fn main() -> ExitCode {
    let args: Vec<String> = std::env::args().skip(1).collect();
    let (text, path) = match args.as_slice() {
        [path] if path != "--text" => (false, path),
        [flag, path] if flag == "--text" => (true, path),
        _ => {
            eprintln!("usage: words_to_text [--text] FILE");
            return ExitCode::from(2);
        }
    };
    let bytes = match std::fs::read(path) {
        Ok(bytes) => bytes,
        Err(error) => {
            eprintln!("words_to_text: {path} can't be read: {error}");
            return ExitCode::from(2);
        }
    };
    let words: Result<Vec<u64>, String> = if text {
        String::from_utf8_lossy(&bytes)
            .split_whitespace()
            .map(|word| u64::from_str_radix(word, 16).map_err(|_| format!("'{word}' is no hexadecimal word")))
            .collect()
    } else if bytes.len() % 8 != 0 {
        Err("the file ends inside a word".to_string())
    } else {
        Ok(bytes.chunks(8).map(|word| u64::from_le_bytes(word.try_into().unwrap_or([0; 8]))).collect())
    };
    match words.and_then(|words| oracle::second_reader::text(&words)) {
        Ok(text) => {
            print!("{text}");
            ExitCode::SUCCESS
        }
        Err(error) => {
            eprintln!("words_to_text: {path}: {error}");
            ExitCode::from(1)
        }
    }
}
