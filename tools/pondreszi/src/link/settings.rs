use pondreszi::{Mode, ReceiverSettings, Refusal, Refused, SenderSettings};

use crate::ending::Ending;
use crate::options::Options;

/// What `link` is told by its options.
#[derive(Debug)]
pub struct Settings {
    pub units: usize,
    pub sender: SenderSettings,
    pub receiver: ReceiverSettings,
    pub mode: Mode,
    pub seed: u64,
    /// Percent of the frames, and of the control words, that are lost.
    pub frame_loss: u64,
    pub word_loss: u64,
    /// Percent of the AD frames and control words arriving that arrive once more.
    pub repeats: u64,
    /// Wrong bits in 1,000,000 bits of a CLTU.
    pub noise: u64,
    /// Percent of the passes at which the application begins to keep its buffers for a while.
    pub busy: u64,
}

const WITH_A_VALUE: [&str; 16] = [
    "--units",
    "--k",
    "--window",
    "--buffers",
    "--t1",
    "--limit",
    "--timeout-type",
    "--spacecraft",
    "--channel",
    "--first",
    "--seed",
    "--frame-loss",
    "--word-loss",
    "--repeats",
    "--noise",
    "--busy",
];

impl Settings {
    pub fn parse(words: &[&str]) -> Result<Settings, Ending> {
        let options = Options::parse(words, &["--correct"], &WITH_A_VALUE)?;
        let spacecraft = setting(&options, "--spacecraft", 42)?;
        let channel = setting(&options, "--channel", 3)?;
        let first = setting(&options, "--first", 250)?;
        let mode = if options.has("--correct") {
            Mode::Correcting
        } else {
            Mode::Detecting
        };
        Ok(Settings {
            units: options.number_up_to("--units", 100, 100_000)? as usize,
            sender: SenderSettings {
                k: setting(&options, "--k", 8)?,
                t1_initial: setting(&options, "--t1", 12)?,
                transmission_limit: setting(&options, "--limit", 3)?,
                timeout_type: setting(&options, "--timeout-type", 0)?,
                spacecraft,
                channel,
                vs: first,
                nnr: first,
            },
            receiver: ReceiverSettings {
                spacecraft,
                channel,
                window: setting(&options, "--window", 16)?,
                vr: first,
                buffers: setting(&options, "--buffers", 4)?,
            },
            mode,
            seed: options.number("--seed")?.unwrap_or(1),
            frame_loss: options.number_up_to("--frame-loss", 20, 99)?,
            word_loss: options.number_up_to("--word-loss", 20, 99)?,
            repeats: options.number_up_to("--repeats", 0, 99)?,
            noise: options.number_up_to("--noise", 0, 1_000_000)?,
            busy: options.number_up_to("--busy", 2, 100)?,
        })
    }
}

/// A setting of one of the ends, which the library judges. What its type cannot hold is outside
/// every limit, and so refused as the library refuses it.
fn setting<T: TryFrom<u64>>(options: &Options, name: &str, otherwise: T) -> Result<T, Ending> {
    let Some(number) = options.number(name)? else {
        return Ok(otherwise);
    };
    T::try_from(number).map_err(|_| outside(Refusal::Setting.into()))
}

/// A setting that is refused.
pub fn outside(refused: Refused) -> Ending {
    let meaning = refused.refusal.meaning();
    Ending::refused(format!(
        "{refused}: {meaning}; pondreszi link --help tells the limits."
    ))
}
