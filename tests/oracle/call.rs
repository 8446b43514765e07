//! A call, its state, and the text of both.

#[derive(Clone)]
pub struct State {
    pub xq: [i16; 640],
    pub shp: [i32; 640],
    pub lpc: [i32; 96],
    pub ar2: [i32; 24],
    /// sLF_AR_shp_Q14, sDiff_shp_Q14, lagPrev, sLTP_buf_idx, sLTP_shp_buf_idx, rand_seed, prev_gain_Q16, rewhite_flag
    pub rest: [i32; 8],
}

pub const LAG: usize = 2;
pub const GAIN: usize = 6;

impl State {
    /// docs/RULES.md, "A fresh state": lagPrev is 100 since request E3, it was 0 before
    pub fn fresh() -> State {
        State { xq: [0; 640], shp: [0; 640], lpc: [0; 96], ar2: [0; 24], rest: [0, 0, 100, 0, 0, 0, 65536, 0] }
    }

    /// all 1408 words in order
    pub fn words(&self) -> Vec<i32> {
        let xq: Vec<i32> = self.xq.iter().map(|&w| w as i32).collect();
        [&xq[..], &self.shp, &self.lpc, &self.ar2, &self.rest].concat()
    }

    pub fn from(w: &[i32]) -> State {
        let mut s = State::fresh();
        for i in 0..640 {
            s.xq[i] = w[i] as i16;
        }
        s.shp.copy_from_slice(&w[640..1280]);
        s.lpc.copy_from_slice(&w[1280..1376]);
        s.ar2.copy_from_slice(&w[1376..1400]);
        s.rest.copy_from_slice(&w[1400..1408]);
        s
    }

    /// those that count, of all: docs/RULES.md, "What counts"
    pub fn counting(w: &[i32], l: usize) -> Vec<i32> {
        [&w[..4 * l], &w[640..640 + 4 * l], &w[1280..1296], &w[1376..1403], &w[1406..1407]].concat()
    }
}

pub enum Start {
    Fresh,
    Prev,
    Given(Box<State>),
}

pub struct Call {
    pub name: String,
    pub settings: [i32; 12],
    /// samples, PredCoef, LTPCoef, AR
    pub shorts: Vec<Vec<i16>>,
    /// harmonic gains, tilts, LFs, gains, lags
    pub longs: Vec<Vec<i32>>,
    pub start: Start,
}

impl Call {
    /// N where that is at most 320, else 0
    pub fn pulses_len(&self) -> usize {
        let (l, n) = (self.settings[0] as i64, self.settings[1] as i64);
        if l > 0 && n > 0 && l * n <= 320 { (l * n) as usize } else { 0 }
    }

    pub fn text(&self) -> String {
        let row = |w: Vec<i64>| {
            let words: Vec<String> = w.iter().map(|v| v.to_string()).collect();
            format!("{} {}\n", w.len(), words.join(" "))
        };
        let mut t = format!("call {}\n{}", self.name, row(self.settings.iter().map(|&v| v as i64).collect()));
        for r in &self.shorts {
            t += &row(r.iter().map(|&v| v as i64).collect());
        }
        for r in &self.longs {
            t += &row(r.iter().map(|&v| v as i64).collect());
        }
        t += &match &self.start {
            Start::Fresh => "state fresh\n".to_string(),
            Start::Prev => "state prev\n".to_string(),
            Start::Given(s) => {
                let words: Vec<String> = s.words().iter().map(|v| v.to_string()).collect();
                format!("state given\n{}\n", words.join(" "))
            }
        };
        t + "go\n"
    }
}

struct Words<'a>(std::str::SplitAsciiWhitespace<'a>);

impl<'a> Words<'a> {
    fn word(&mut self) -> Result<&'a str, String> {
        self.0.next().ok_or("the input ends inside a call".to_string())
    }

    fn number(&mut self, lo: i64, hi: i64) -> Result<i64, String> {
        let w = self.word()?;
        match w.parse::<i64>() {
            Ok(v) if lo <= v && v <= hi => Ok(v),
            _ => Err(format!("not a number of this row: {}", w)),
        }
    }

    fn shorts(&mut self) -> Result<Vec<i16>, String> {
        let n = self.number(0, 100000)?;
        (0..n).map(|_| self.number(-32768, 32767).map(|v| v as i16)).collect()
    }

    fn longs(&mut self, n: i64) -> Result<Vec<i32>, String> {
        (0..n).map(|_| self.number(i32::MIN as i64, i32::MAX as i64).map(|v| v as i32)).collect()
    }

    fn call(&mut self) -> Result<Call, String> {
        let name = self.word()?.to_string();
        if self.number(0, 100000)? != 12 {
            return Err("settings: not 12".to_string());
        }
        let settings = self.longs(12)?.try_into().unwrap();
        let shorts = (0..4).map(|_| self.shorts()).collect::<Result<Vec<_>, _>>()?;
        let mut longs = vec![];
        for _ in 0..5 {
            let n = self.number(0, 100000)?;
            longs.push(self.longs(n)?);
        }
        let mut start = Start::Fresh;
        let mut w = self.word()?;
        if w == "state" {
            start = match self.word()? {
                "fresh" => Start::Fresh,
                "prev" => Start::Prev,
                "given" => Start::Given(Box::new(State::from(&self.longs(1408)?))),
                o => return Err(format!("no such state: {}", o)),
            };
            w = self.word()?;
        }
        if w != "go" {
            return Err(format!("not 'go': {}", w));
        }
        Ok(Call { name, settings, shorts, longs, start })
    }
}

pub fn parse(text: &str) -> Result<Vec<Call>, String> {
    let mut words = Words(text.split_ascii_whitespace());
    let mut calls = vec![];
    while let Some(w) = words.0.next() {
        if w != "call" {
            return Err(format!("after {} calls: not 'call': {}", calls.len(), w));
        }
        calls.push(words.call().map_err(|e| format!("call {}: {}", calls.len(), e))?);
    }
    Ok(calls)
}
