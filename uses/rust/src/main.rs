//! Tells of the tokens of a file: FILE OPTIONS [PLACE..], as the program of uses/c does; of its imports and exports where the
//! first word is `imports`.
use ecma_rows_caller::{Module, Options, Slashes, Tokens};
use std::{env, error, fs};

fn tell_imports(module: &Module) {
    for it in &module.imports {
        println!("import {:?} {:?} {:?} {:?} {:?}", it.form, it.phase, it.specifier, it.statement, it.exports);
    }
    for it in &module.exports {
        println!("export {} {:?} {}", it.name, it.local, it.is_type);
    }
    println!("module {} {}", module.is_facade, module.has_module_syntax);
}

fn main() -> Result<(), Box<dyn error::Error>> {
    let mut words: Vec<String> = env::args().skip(1).collect();
    let is_module = words[0] == "imports";
    if is_module {
        words.remove(0);
    }
    let bits: u32 = words[1].parse()?;
    let places = words[2..].iter().map(|word| word.parse()).collect::<Result<Vec<u32>, _>>()?;
    let options = Options { typescript: bits & 1 != 0, module: bits & 2 != 0, strict: bits & 4 != 0 };
    let slashes = match bits & 24 {
        8 => Slashes::ByFlag,
        16 => Slashes::ByRole,
        _ => Slashes::At(&places),
    };
    let text = fs::read_to_string(&words[0])?;
    if is_module {
        tell_imports(&Module::new(&text, options, bits & 32 != 0, slashes)?);
        return Ok(());
    }
    let tokens = Tokens::new(&text, options, slashes)?;
    let count = tokens.size_hint().0;
    for token in tokens {
        let flags = u8::from(token.line_break_before) + 2 * u8::from(token.is_respelled);
        println!("{} {} {} {}", token.lo, token.hi, token.kind, flags);
    }
    println!("status 0 count {count}");
    Ok(())
}
