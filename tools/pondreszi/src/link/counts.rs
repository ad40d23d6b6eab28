use std::fmt;

use pondreszi::{Alert, Receiver};

use super::settings::Settings;

/// What happened on the link.
#[derive(Debug, Default)]
pub struct Counts {
    pub ad_frames: usize,
    pub bc_frames: usize,
    /// Those AD frames whose unit had been sent before.
    pub sent_again: usize,
    pub lost_frames: usize,
    /// CLTUs and frames that the receiving end refused, for wrong bits.
    pub refused_frames: usize,
    pub repeated_frames: usize,
    pub corrected: u64,
    pub words: usize,
    pub lost_words: usize,
    pub repeated_words: usize,
    pub suspensions: usize,
    pub confirmed: usize,
    /// Found to be on board by the report value after an alert.
    pub confirmed_by_report: usize,
    alerts: [usize; Alert::ALL.len()],
}

impl Counts {
    pub fn add_alert(&mut self, alert: Alert) {
        self.alerts[usize::from(alert.number()) - 1] += 1;
    }

    fn alerts(&self) -> String {
        let alerts = Alert::ALL.iter().zip(self.alerts);
        let told: Vec<String> = alerts
            .filter(|(_, count)| *count > 0)
            .map(|(alert, count)| format!("{count} {alert}"))
            .collect();
        if told.is_empty() {
            return "none".to_owned();
        }
        told.join(", ")
    }
}

/// What is told at the end.
pub struct Report<'a> {
    pub settings: &'a Settings,
    pub counts: &'a Counts,
    pub receiver: &'a Receiver,
    /// Transmission_Limit at the end.
    pub limit: u8,
    /// The units that were sent at least once.
    pub sent: usize,
    /// The units accepted on board.
    pub on_board: usize,
    /// Whether these are, in order and each once, a first part of those offered.
    pub in_order: bool,
}

impl fmt::Display for Report<'_> {
    fn fmt(&self, f: &mut fmt::Formatter<'_>) -> fmt::Result {
        self.settings(f)?;
        self.events(f)?;
        self.held(f)
    }
}

impl Report<'_> {
    fn settings(&self, f: &mut fmt::Formatter<'_>) -> fmt::Result {
        let (settings, sender) = (self.settings, self.settings.sender);
        writeln!(
            f,
            "Sender         K {}, T1_Initial {}, Transmission_Limit {}, Timeout_Type {}",
            sender.k, sender.t1_initial, sender.transmission_limit, sender.timeout_type
        )?;
        writeln!(
            f,
            "Receiver       W {}, {} buffers, {} mode",
            settings.receiver.window, settings.receiver.buffers, settings.mode
        )?;
        writeln!(
            f,
            "Link           seed {}; {} % of frames and {} % of control words lost; {} % repeated; \
             {} of 1000000 bits wrong",
            settings.seed,
            settings.frame_loss,
            settings.word_loss,
            settings.repeats,
            settings.noise
        )
    }

    fn events(&self, f: &mut fmt::Formatter<'_>) -> fmt::Result {
        let counts = self.counts;
        writeln!(
            f,
            "Units          {} offered, {} sent, {} confirmed, {} more found on board after an alert",
            self.settings.units, self.sent, counts.confirmed, counts.confirmed_by_report
        )?;
        writeln!(
            f,
            "Frames         {} AD frames, {} of them retransmissions; {} BC frames",
            counts.ad_frames, counts.sent_again, counts.bc_frames
        )?;
        writeln!(
            f,
            "Upwards        {} lost, {} refused, {} arrived again; {} codeblocks corrected",
            counts.lost_frames, counts.refused_frames, counts.repeated_frames, counts.corrected
        )?;
        writeln!(
            f,
            "Control words  {} made, {} lost, {} arrived again",
            counts.words, counts.lost_words, counts.repeated_words
        )?;
        writeln!(f, "Alerts         {}", counts.alerts())?;
        writeln!(
            f,
            "Suspensions    {}; Transmission_Limit {} at the end",
            counts.suspensions, self.limit
        )
    }

    fn held(&self, f: &mut fmt::Formatter<'_>) -> fmt::Result {
        let order = if self.in_order {
            "each once and in order"
        } else {
            "NOT as they were offered"
        };
        writeln!(
            f,
            "On board       {} units, {order}; V(R) {}; {}; {} of {} buffers taken",
            self.on_board,
            self.receiver.vr(),
            self.receiver.state(),
            self.receiver.buffers_taken(),
            self.settings.receiver.buffers
        )
    }
}
