import Debug "mo:base/Debug";

actor {
  let other = actor "aaaaa-aa" : actor { price : shared Text -> async Nat };
  var sum = 0;

  public func buy(what : Text) : async Nat {
    let price = await other.price(what);
    sum += price;
    if (sum > 9) { Debug.print("dear") };
    assert (sum < 20);
    sum
  };

  public query func spent() : async Nat { sum };
}
