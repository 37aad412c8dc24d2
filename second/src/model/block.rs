//! The V830's event layout: a reader and a writer of one event, from document 01, 'Event layout'.

pub const CHANNELS: usize = 32;

pub const NO_WORDS_IN_EVENT: u32 = 8;
pub const WORDS_END: u32 = 20;
pub const NO_BIT_26: u32 = 21;
pub const COUNT_ABOVE_32: u32 = 22;
pub const DATUM_BIT_26: u32 = 23;
pub const DATUM_CHANNEL: u32 = 24;
pub const COUNT_NOT_ENABLED: u32 = 25;
pub const BITS_25_24: u32 = 26;
pub const LENT_TOO_FEW: u32 = 27;
pub const EVENT_NOT_WRITABLE: u32 = 28;

/// The bit that marks a header, and that is 0 in a short datum.
pub const BIT_26: u32 = 1 << 26;
/// The largest count of a short datum.
pub const LARGEST_SHORT_COUNT: u32 = BIT_26 - 1;
/// The largest header fields.
pub const LARGEST_GEO: u32 = 31;
pub const LARGEST_SOURCE: u32 = 3;
pub const LARGEST_TRIGGER: u32 = 65_535;

/// What reader and writer are told of the module.
#[derive(Clone, Copy, Debug, PartialEq, Eq)]
pub struct Settings {
    pub header: bool,
    pub short: bool,
    pub enable: u32,
}

/// What an event tells.
#[derive(Clone, Copy, Debug, Default, PartialEq, Eq)]
pub struct Event {
    pub geo: u32,
    pub source: u32,
    pub trigger: u32,
    pub counts: [u32; CHANNELS],
}

/// What reading one event gives; refused, all but the answer is 0.
#[derive(Clone, Copy, Debug, Default, PartialEq, Eq)]
pub struct Read {
    pub answer: u32,
    pub length: usize,
    pub event: Event,
}

/// What writing one event gives; refused, the length is 0.
#[derive(Clone, Copy, Debug, Default, PartialEq, Eq)]
pub struct Written {
    pub answer: u32,
    pub length: usize,
}

impl Settings {
    /// Whether a channel is enabled.
    pub fn enabled(&self, channel: usize) -> bool {
        self.enable >> channel & 1 == 1
    }

    /// The enabled channels, ascending.
    pub fn channels(&self) -> Vec<usize> {
        (0..CHANNELS)
            .filter(|channel| self.enabled(*channel))
            .collect()
    }

    /// The number of words in front of the data.
    pub fn header_words(&self) -> usize {
        usize::from(self.header)
    }

    /// The event's length in words.
    pub fn length(&self) -> usize {
        self.header_words() + self.channels().len()
    }
}

/// Reads the event at the beginning of the words.
pub fn read_event(settings: &Settings, words: &[u32]) -> Read {
    match event_in(settings, words) {
        Ok(event) => Read {
            answer: 0,
            length: settings.length(),
            event,
        },
        Err(answer) => Read {
            answer,
            ..Read::default()
        },
    }
}

/// The event at the beginning of the words, or the number of the first refusal.
fn event_in(settings: &Settings, words: &[u32]) -> Result<Event, u32> {
    let channels = settings.channels();
    if settings.length() == 0 {
        return Err(NO_WORDS_IN_EVENT);
    }
    let first = *words.first().ok_or(WORDS_END)?;
    let mut event = if settings.header {
        read_header(first, channels.len())?
    } else {
        Event::default()
    };
    let body = words
        .get(settings.header_words()..settings.length())
        .ok_or(WORDS_END)?;
    for (channel, word) in channels.into_iter().zip(body) {
        event.counts[channel] = read_datum(settings.short, channel, *word)?;
    }
    Ok(event)
}

/// The header's fields, its count being the number of enabled channels.
fn read_header(word: u32, enabled: usize) -> Result<Event, u32> {
    let count = word >> 18 & 0x3F;
    if word & BIT_26 == 0 {
        return Err(NO_BIT_26);
    }
    if word >> 24 & 3 != 0 {
        return Err(BITS_25_24);
    }
    if count > 32 {
        return Err(COUNT_ABOVE_32);
    }
    if count as usize != enabled {
        return Err(COUNT_NOT_ENABLED);
    }
    Ok(Event {
        geo: word >> 27,
        source: word >> 16 & 3,
        trigger: word & 0xFFFF,
        counts: [0; CHANNELS],
    })
}

/// The count of a datum that is due to be this channel's.
fn read_datum(short: bool, channel: usize, word: u32) -> Result<u32, u32> {
    if !short {
        return Ok(word);
    }
    if word & BIT_26 != 0 {
        return Err(DATUM_BIT_26);
    }
    if (word >> 27) as usize != channel {
        return Err(DATUM_CHANNEL);
    }
    Ok(word & LARGEST_SHORT_COUNT)
}

/// Writes the event at the beginning of the lent words.
pub fn write_event(settings: &Settings, event: &Event, lent: &mut [u32]) -> Written {
    let length = settings.length();
    let answer = if length == 0 {
        NO_WORDS_IN_EVENT
    } else if !writable(settings, event) {
        EVENT_NOT_WRITABLE
    } else if lent.len() < length {
        LENT_TOO_FEW
    } else {
        lent[..length].copy_from_slice(&words_of(settings, event));
        return Written { answer: 0, length };
    };
    Written { answer, length: 0 }
}

/// Whether an event can be written under these settings.
fn writable(settings: &Settings, event: &Event) -> bool {
    let fields = event.geo <= LARGEST_GEO
        && event.source <= LARGEST_SOURCE
        && event.trigger <= LARGEST_TRIGGER;
    let no_fields = event.geo == 0 && event.source == 0 && event.trigger == 0;
    let fits = |count: u32| !settings.short || count <= LARGEST_SHORT_COUNT;
    let mut counts = event.counts.iter().enumerate();
    fields
        && (settings.header || no_fields)
        && counts.all(|(channel, count)| fits(*count) && (settings.enabled(channel) || *count == 0))
}

/// The words of an event that can be written.
fn words_of(settings: &Settings, event: &Event) -> Vec<u32> {
    let channels = settings.channels();
    let mut words = Vec::new();
    if settings.header {
        let count = channels.len() as u32;
        words.push(event.geo << 27 | BIT_26 | count << 18 | event.source << 16 | event.trigger);
    }
    for channel in channels {
        let front = if settings.short { channel as u32 } else { 0 };
        words.push(front << 27 | event.counts[channel]);
    }
    words
}
