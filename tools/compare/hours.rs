//! Random hours that are sound, or nearly so: zero readings may leave a charge without weights.

/// A small generator of pseudo-random numbers (splitmix64). The same seed gives the same numbers.
pub struct Dice(u64);

impl Dice {
    /// The dice of one file: each file of a seed can be made without the others.
    pub fn new(seed: u64, file: u64) -> Dice {
        let mut dice = Dice(seed);
        Dice(dice.next() ^ file.wrapping_mul(0xd1b5_4a32_d192_ed03))
    }

    pub fn next(&mut self) -> u64 {
        self.0 = self.0.wrapping_add(0x9e37_79b9_7f4a_7c15);
        let mixed = (self.0 ^ (self.0 >> 30)).wrapping_mul(0xbf58_476d_1ce4_e5b9);
        let mixed = (mixed ^ (mixed >> 27)).wrapping_mul(0x94d0_49bb_1331_11eb);
        mixed ^ (mixed >> 31)
    }

    /// A number from `low` to `high`, both included.
    pub fn between(&mut self, low: u32, high: u32) -> u32 {
        low + (self.next() % (u64::from(high - low) + 1)) as u32
    }

    /// A place in a list of this length, which is not 0.
    pub fn place(&mut self, length: usize) -> usize {
        (self.next() % length as u64) as usize
    }

    pub fn pick<T: Clone>(&mut self, choices: &[T]) -> T {
        choices[self.place(choices.len())].clone()
    }

    pub fn one_in(&mut self, times: u32) -> bool {
        self.between(1, times) == 1
    }

    pub fn shuffle<T>(&mut self, list: &mut [T]) {
        for end in (1..list.len()).rev() {
            list.swap(end, self.place(end + 1));
        }
    }
}

/// The places of the keys in an hour's lines.
pub const HOUR: usize = 0;
pub const ASSET: usize = 1;
pub const OFFER: usize = 2;
pub const ORDER: usize = 3;
pub const SHED: usize = 4;
pub const METER: usize = 5;
pub const INSTRUCT: usize = 6;
pub const RULE: usize = 7;

#[derive(Clone)]
pub struct Asset {
    pub number: u32,
    pub letter: char,
    /// Size and price of each block; none if the asset makes no offer.
    pub blocks: Vec<(u32, u32)>,
}

impl Asset {
    pub fn is_source(&self) -> bool {
        "GI".contains(self.letter)
    }

    pub fn capacity(&self) -> u32 {
        self.blocks.iter().map(|block| block.0).sum()
    }
}

pub struct Hour {
    pub assets: Vec<Asset>,
    /// The lines of each key, without LF.
    pub lines: [Vec<String>; 8],
}

impl Hour {
    pub fn text(&self) -> Vec<u8> {
        text_of(&self.lines.concat())
    }
}

pub fn text_of(lines: &[String]) -> Vec<u8> {
    lines.iter().flat_map(|line| line.bytes().chain([b'\n'])).collect()
}

/// The line of an offer.
pub fn offer_line(asset: u32, blocks: &[(u32, u32)]) -> String {
    let blocks: Vec<String> = blocks.iter().map(|(size, price)| format!("{size}:{price}")).collect();
    format!("offer={asset},{}", blocks.join(","))
}

/// An hour of any size.
pub fn any_hour(dice: &mut Dice) -> Hour {
    let most_assets = dice.pick(&[0, 1, 4, 4, 8, 8, 8, 16, 16, 32, 64, 64]);
    let assets = if most_assets == 64 && dice.one_in(2) { 64 } else { dice.between(most_assets / 2, most_assets) };
    let participants = dice.pick(&[1, 3, 8, 32]);
    hour_with(dice, assets, participants)
}

/// An hour with this many assets, owned by at most this many participants.
pub fn hour_with(dice: &mut Dice, assets: u32, participants: u32) -> Hour {
    let mut owners: Vec<u32> = (1..=32).collect();
    dice.shuffle(&mut owners);
    owners.truncate(participants as usize);
    let mut numbers: Vec<u32> = (1..=64).collect();
    dice.shuffle(&mut numbers);
    numbers.truncate(assets as usize);
    let highest_price = dice.pick(&[99_999, 99_999, 9_999, 500, 9]);
    let in_turn = dice.one_in(2);
    let mut lines: [Vec<String>; 8] = Default::default();
    let label = dice.next() as u32;
    lines[HOUR].push(format!("hour={}", dice.pick(&[0, 7, 2_024_040_107, u32::MAX, label])));
    let mut assets = Vec::new();
    for (place, &number) in numbers.iter().enumerate() {
        let letter = dice.pick(&['G', 'G', 'G', 'I', 'L', 'L', 'X']);
        let owner = if in_turn { owners[place % owners.len()] } else { dice.pick(&owners) };
        let blocks = if dice.one_in(8) { Vec::new() } else { any_blocks(dice, "GI".contains(letter), highest_price) };
        lines[ASSET].push(format!("asset={number},{letter},{owner}"));
        assets.push(Asset { number, letter, blocks });
    }
    lines[OFFER] = offer_lines(dice, &assets, highest_price);
    lines[ORDER] = order_lines(dice, &assets);
    lines[SHED] = shed_lines(dice);
    lines[METER] = meter_lines(dice, &assets);
    lines[INSTRUCT] = instruct_lines(dice, &assets);
    lines[RULE].push(dice.pick(&["rule=largest", "rule=running"]).to_string());
    Hour { assets, lines }
}

/// One to seven blocks in the order of the side.
pub fn any_blocks(dice: &mut Dice, is_source: bool, highest_price: u32) -> Vec<(u32, u32)> {
    let count = dice.pick(&[1, 2, 2, 3, 3, 5, 7]);
    let mut prices = Vec::new();
    while prices.len() < count {
        let price = dice.between(0, highest_price);
        prices.push(if dice.one_in(8) { dice.pick(&[0, 1, highest_price]) } else { price });
        prices.sort();
        prices.dedup();
    }
    if !is_source {
        prices.reverse();
    }
    let largest_size = dice.pick(&[1, 20, 1_000 / count as u32]);
    let mut sizes: Vec<u32> = (0..count).map(|_| dice.between(1, largest_size)).collect();
    if dice.one_in(4) {
        sizes[0] += 1_000 - sizes.iter().sum::<u32>();
    }
    sizes.into_iter().zip(prices).collect()
}

/// The offers in any order, now and then with an earlier one that is replaced.
fn offer_lines(dice: &mut Dice, assets: &[Asset], highest_price: u32) -> Vec<String> {
    let mut offering: Vec<&Asset> = assets.iter().filter(|asset| !asset.blocks.is_empty()).collect();
    dice.shuffle(&mut offering);
    let mut lines = Vec::new();
    for asset in offering {
        if dice.one_in(8) {
            lines.push(offer_line(asset.number, &any_blocks(dice, asset.is_source(), highest_price)));
        }
        lines.push(offer_line(asset.number, &asset.blocks));
    }
    lines
}

/// Orders asset by asset or by rising minute, also several at the same minute.
fn order_lines(dice: &mut Dice, assets: &[Asset]) -> Vec<String> {
    let mut orders = Vec::new();
    for asset in assets.iter().filter(|asset| !asset.blocks.is_empty()) {
        let mut minute = if dice.one_in(2) { 0 } else { dice.between(0, 59) };
        for _ in 0..dice.pick(&[0, 1, 1, 2, 3, 8]) {
            let border = asset.blocks[..dice.place(asset.blocks.len())].iter().map(|block| block.0).sum();
            let any_level = dice.between(0, asset.capacity());
            let level = dice.pick(&[0, asset.capacity(), border, any_level, any_level]);
            orders.push((minute, format!("order={},{minute},{level}", asset.number)));
            minute = if dice.one_in(3) { minute } else { dice.between(minute, 59) };
        }
    }
    if dice.one_in(2) {
        orders.sort_by_key(|order| order.0);
    }
    orders.into_iter().map(|order| order.1).collect()
}

fn shed_lines(dice: &mut Dice) -> Vec<String> {
    let spans = dice.pick(&[0, 0, 0, 1, 2, 4]);
    let mut lines = Vec::new();
    for _ in 0..spans {
        let first = dice.between(0, 59);
        let end = dice.between(first + 1, 60);
        let (first, end) = dice.pick(&[(first, end), (first, first + 1), (first, first + 1), (0, 60), (59, 60)]);
        lines.push(format!("shed={first},{end}"));
    }
    lines
}

/// A reading for every asset in any order, now and then with an earlier one that is replaced.
fn meter_lines(dice: &mut Dice, assets: &[Asset]) -> Vec<String> {
    let same = dice.between(1, 2_000) * dice.pick(&[1, 500]);
    let all_alike = dice.one_in(6);
    let mut lines = Vec::new();
    let mut metered: Vec<&Asset> = assets.iter().collect();
    dice.shuffle(&mut metered);
    for asset in metered {
        let any = dice.between(0, 1_000_000);
        // As much as some level gives in an hour, exactly or nearly.
        let dispatched = dice.between(0, asset.capacity()) * 1_000 + dice.pick(&[0, 0, 1]);
        let kwh = dice.pick(&[0, same, any, any / 1_000, any / 500 * 500, dispatched, dispatched, 1_000_000]);
        if dice.one_in(8) {
            lines.push(format!("meter={},{any}", asset.number));
        }
        let kwh = if all_alike { same } else { kwh.min(1_000_000) };
        lines.push(format!("meter={},{kwh}", asset.number));
    }
    lines
}

fn instruct_lines(dice: &mut Dice, assets: &[Asset]) -> Vec<String> {
    let (sources, sinks): (Vec<&Asset>, Vec<&Asset>) = assets.iter().partition(|asset| asset.is_source());
    if sources.is_empty() || sinks.is_empty() {
        return Vec::new();
    }
    let mut numbers: Vec<u32> = (1..=64).collect();
    dice.shuffle(&mut numbers);
    numbers.truncate(dice.pick(&[0, 1, 2, 5, 64]));
    let mut lines = Vec::new();
    for number in numbers {
        let (source, sink) = (dice.pick(&sources).number, dice.pick(&sinks).number);
        let any = dice.between(1, 1_000_000);
        lines.push(format!("instruct={number},{source},{sink},{}", dice.pick(&[1, any, any / 100 + 1, 1_000_000])));
    }
    lines
}

/// The text of an hour filled up to this size with earlier readings and with `shed` lines of 9 and of 10 bytes.
pub fn filled_up(dice: &mut Dice, mut hour: Hour, size: usize) -> Vec<u8> {
    let mut missing = size - hour.text().len();
    while missing > 200 {
        let reading = format!("meter={},{}", dice.pick(&hour.assets).number, dice.between(0, 1_000_000));
        missing -= reading.len() + 1;
        hour.lines[METER].insert(0, reading);
    }
    let long_lines = missing % 9;
    hour.lines[SHED].extend(vec!["shed=9,10".to_string(); long_lines]);
    hour.lines[SHED].extend(vec!["shed=5,6".to_string(); missing / 9 - long_lines]);
    hour.text()
}
