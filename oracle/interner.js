/*
 * Lets ot.js count Unicode scalar values, as a schedule does: every astral scalar of a text is replaced by
 * one UTF-16 unit out of the 2,048 surrogate units, which no valid text holds
 * by itself, so that the string calls of ot.js count scalars; a text is turned back when it
 * is printed.  More than 2,048 different astral scalars are refused by an exception.
 */
export function Interner() {
  this.unitOf = new Map();
  this.textOf = [];
}
Interner.prototype.inward = function (s) {
  var self = this;
  return s.replace(/[\ud800-\udbff][\udc00-\udfff]/g, function (pair) {
    var u = self.unitOf.get(pair);
    if (u === undefined) {
      if (self.textOf.length >= 2048) { throw new Error('too many different astral scalars'); }
      u = String.fromCharCode(0xd800 + self.textOf.length);
      self.textOf.push(pair);
      self.unitOf.set(pair, u);
    }
    return u;
  });
};
Interner.prototype.outward = function (s) {
  var self = this;
  return s.replace(/[\ud800-\udfff]/g, function (u) {
    return self.textOf[u.charCodeAt(0) - 0xd800];
  });
};
