actor {
  stable var n : Nat = 0;
  public func add(k : Nat) : async Nat { n += k; n };
  public query func get() : async Nat { n };
}
