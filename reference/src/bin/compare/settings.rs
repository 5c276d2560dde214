//! The options of `compare`.

use std::path::PathBuf;

pub struct Settings {
    pub rest: Option<PathBuf>,
    pub examine: Option<PathBuf>,
    pub count: usize,
    pub seed: u64,
    pub out: PathBuf,
    /// Also options of `examine` that the documents leave open.
    pub open: bool,
    /// How long a program may take for one text.
    pub seconds: u64,
    /// How many further orders the reference runs of each board that rests.
    pub orders: usize,
}

pub fn parse(arguments: &[String]) -> Result<Settings, String> {
    let mut settings = Settings {
        rest: None,
        examine: None,
        count: 1_000,
        seed: 1,
        out: PathBuf::from("differences"),
        open: false,
        seconds: 60,
        orders: 3,
    };
    let mut rest = arguments.iter();
    while let Some(name) = rest.next() {
        let mut value = || rest.next().ok_or(format!("{name} needs a value"));
        match name.as_str() {
            "--rest" => settings.rest = Some(PathBuf::from(value()?)),
            "--examine" => settings.examine = Some(PathBuf::from(value()?)),
            "--count" => settings.count = number(value()?)? as usize,
            "--seed" => settings.seed = number(value()?)?,
            "--out" => settings.out = PathBuf::from(value()?),
            "--seconds" => settings.seconds = number(value()?)?,
            "--own-orders" => settings.orders = number(value()?)? as usize,
            "--open" => settings.open = true,
            _ => return Err(format!("{name} is unknown")),
        }
    }
    Ok(settings)
}

fn number(value: &str) -> Result<u64, String> {
    value.parse().map_err(|_| format!("{value} is no number"))
}
