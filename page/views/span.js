// What part of all packets is seen, and which packet is the chosen one. Strips and curves that belong together share one.

export class Span {
  total = 0;
  first = 0; // the packet at the left edge; it may be a fraction
  width = 1; // so many packets are seen
  at = 0; // the chosen packet
  from = null; // where a choice of several begins
  kept = null; // what was chosen, while another packet is looked at
  is_dragged = false;
  watchers = [];

  watch(told) {
    this.watchers.push(told);
  }

  tell() {
    for (const told of this.watchers) told();
  }

  // There are so many packets now. What is seen and chosen stays if there are as many as before.
  set_total(total) {
    const is_all = this.width >= this.total || total < this.total;
    if (total !== this.total) this.from = null;
    this.total = total;
    if (is_all || total === 0) [this.first, this.width] = [0, Math.max(1, total)];
    this.at = Math.max(0, Math.min(this.at, total - 1));
    this.hold();
  }

  hold() {
    this.width = Math.max(1, Math.min(this.width, Math.max(1, this.total)));
    this.first = Math.max(0, Math.min(this.first, this.total - this.width));
  }

  // Sees `factor` times as many packets, with the place `about` where it was; without it the chosen packet stays in sight.
  zoom(factor, about = null) {
    const old = this.width, middle = about ?? this.at + 0.5;
    this.width = Math.max(1, Math.min(old * factor, Math.max(1, this.total)));
    this.first = middle - ((middle - this.first) * this.width) / old;
    if (about === null) this.sight();
    this.hold();
    this.tell();
  }

  sight() {
    if (this.at < this.first) this.first = this.at;
    if (this.at + 1 > this.first + this.width) this.first = this.at + 1 - this.width;
  }

  see_all() {
    [this.first, this.width] = [0, Math.max(1, this.total)];
    this.tell();
  }

  move(packets) {
    this.first += packets;
    this.hold();
    this.tell();
  }

  // Chooses a packet, and brings it into sight. With `more` the choice grows from where it began.
  go(at, more = false) {
    if (this.total === 0) return;
    this.from = more ? this.from ?? this.at : null;
    this.at = Math.max(0, Math.min(Math.round(at), this.total - 1));
    this.sight();
    this.hold();
    this.tell();
  }

  // Looks at a packet for a while; what was chosen comes back with `look_away`.
  look(at) {
    this.kept ??= this.at;
    if (at === this.at) return;
    this.at = at;
    this.tell();
  }

  look_away() {
    if (this.kept === null) return;
    this.at = Math.max(0, Math.min(this.kept, this.total - 1));
    this.kept = null;
    this.tell();
  }

  drag(from, to) {
    this.is_dragged = true;
    this.from = from;
    this.go(to, true);
  }

  end_drag() {
    this.is_dragged = false;
    this.tell();
  }

  chosen() {
    const other = this.from ?? this.at;
    return [Math.min(this.at, other), Math.max(this.at, other)];
  }

  // The packet at the share `share` of the width, from 0 to 1.
  packet_at(share) {
    return Math.max(0, Math.min(Math.floor(this.first + share * this.width), this.total - 1));
  }
}
