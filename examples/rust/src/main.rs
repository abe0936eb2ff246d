//! Prints the links of a page, each with its text, and with `--in NAME` whether a fragment is plain.

use jeanzircon::{is_plain, links, Options, Tree};
use std::process::ExitCode;
use std::{env, fs};

fn run(words: &[String]) -> Result<(), Box<dyn std::error::Error>> {
    match words {
        [page] => {
            let page = fs::read(page)?;
            let tree = Tree::parse(&page, &Options::default())?;
            for (link, text) in links(&tree) {
                println!("{link} {text}");
            }
        }
        [option, context, fragment] if option == "--in" => {
            let options = Options {
                context,
                ..Options::default()
            };
            println!(
                "{}",
                if is_plain(&fs::read(fragment)?, &options)? {
                    "plain"
                } else {
                    "not plain"
                }
            );
        }
        _ => return Err("name a page, or --in NAME and a fragment".into()),
    }
    Ok(())
}

fn main() -> ExitCode {
    let words: Vec<String> = env::args().skip(1).collect();
    match run(&words) {
        Ok(()) => ExitCode::SUCCESS,
        Err(error) => {
            eprintln!("refused: {error}");
            ExitCode::from(2)
        }
    }
}
