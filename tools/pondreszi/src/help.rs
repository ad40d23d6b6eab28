/// The page that `--help` asks for, wherever it stands.
pub fn asked(words: &[&str]) -> Option<&'static str> {
    if !words.iter().any(|word| ["--help", "-h"].contains(word)) {
        return None;
    }
    match words[0] {
        "cltu" => Some(CLTU),
        "frame" => Some(FRAME),
        "clcw" => Some(CLCW),
        "link" => Some(LINK),
        _ => Some(ALL),
    }
}

const ALL: &str = "\
pondreszi: telecommand octets by ECSS-E-ST-50-04C, answered by the proved library.

  pondreszi cltu encode            the CLTU of a transfer frame
  pondreszi cltu decode            what the first CLTU in the input holds
  pondreszi frame show             the fields of a transfer frame
  pondreszi clcw show              the fields of a control word (CLCW)
  pondreszi link                   an uplink unit and a receiver on board, tried out over a bad link

Each has its own --help. Octets come on standard input as hex digits, with white space or without:

  echo '30 01 00 07 00 00 0E 5D' | pondreszi frame show
  pondreszi cltu decode < pass.hex | pondreszi frame show

With --binary they come, and go out, as they are. 1 to 4,096 octets are taken.

Exit status: 0 done; 1 the library refused, with the refusal's number and text on standard error, or the link did
not deliver; 2 an unknown option or an input that is none: one sentence on standard error says which.
";

const CLTU: &str = "\
pondreszi cltu encode [--binary]
  A transfer frame of 8 to 1,024 octets comes in, its CLTU goes out: start sequence EB 90, codeblocks with the
  randomized frame and fill, tail sequence.

pondreszi cltu decode [--correct] [--binary]
  The first CLTU in the input is read: from the first place at an octet boundary that differs from EB 90 in at most
  one bit up to the first bad codeblock, as a rule the tail. The decoded octets go out with their fill (up to 6 octets),
  as 'frame show' takes them. Standard error tells where the tail was and how many codeblocks were corrected.

  --correct   one wrong bit among the first 63 of a codeblock is corrected and counted; without it such a codeblock is bad
  --binary    octets as they are, in and out; without it hex digits

Refusals (status 1): 1 no start, 2 no block, 3 no end, each with the place in the input, and 10 length.
After 2 the input may hold a CLTU further on: give the octets from the place told on.
";

const FRAME: &str = "\
pondreszi frame show [--spacecraft N] [--channel N] [--binary]
  The fields of a TC Transfer Frame, one on a line, by the names of the standard; up to 6 octets of fill may follow
  the frame. Of a refused frame the fields are shown as far as its octets go, and the refusal on standard error.

  --spacecraft N   the own Spacecraft Identifier; another's frame is refused with 7
  --channel N      the own Virtual Channel Identifier; another's frame is refused with 7
  --binary         octets as they are; without it hex digits

Refusals (status 1): 4 short, 5 fill, 8 check, 6 header, 7 address, 9 command, judged in this order.
";

const CLCW: &str = "\
pondreszi clcw show [--channel N] [--binary]
  The fields of a control word (CLCW) of four octets, one on a line, by the names of the standard, and whether it is valid. An
  invalid one is no refusal: it ends the AD service with Alert[CLCW].

  --channel N   the own Virtual Channel Identification; another's word is refused with 7
  --binary      octets as they are; without it hex digits

Refusals (status 1): 10 length, 7 address.
";

const LINK: &str = "\
pondreszi link [OPTION]...
  An uplink unit (FOP-1) sends units to a receiver on board (FARM-1) over a link that loses, repeats and damages, until every
  unit is confirmed. After an alert it goes on as docs/OPERATIONS.md says, and a suspension is resumed with a
  higher limit. At the end what happened is told. The same options give the same link. On a terminal a line tells the progress.

  --units N          units to send, at most 100000 (100)
  --seed N           another number, another link (1)

The sender:
  --k N              FOP_Sliding_Window_Width K, 1 to 127 (8); at most half of W, or the receiver may lock out
  --t1 N             T1_Initial in ticks, 1 to 65535 (12)
  --limit N          Transmission_Limit, 1 to 255 (3)
  --timeout-type N   Timeout_Type: 0 alert, 1 suspend (0)

The receiver:
  --window N         FARM_Sliding_Window_Width W, even, 2 to 254 (16)
  --buffers N        buffers for AD units, 1 to 8 (4)
  --busy P           percent of the time at which the application begins to keep its buffers for a while (2)
  --correct          single wrong bits are corrected; without it they are only detected

Both:
  --spacecraft N     0 to 1023 (42)
  --channel N        0 to 63 (3)
  --first N          V(S) and V(R) at the start, 0 to 255 (250)

The link:
  --frame-loss P     percent of the frames lost, 0 to 99 (20)
  --word-loss P      percent of the control words lost, 0 to 99 (20)
  --repeats P        percent of the AD frames and control words that arrive once more, 0 to 99 (0)
  --noise N          wrong bits in 1,000,000 bits of a CLTU, 0 to 1000000 (0)

A setting outside its limit is refused with 12 (status 1). Status 1 too where not every unit got through.
";
