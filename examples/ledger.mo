import Array "mo:base/Array";

// Accounts that only their owners move money out of.
actor Ledger {
  type Account = { owner : Principal; var balance : Nat };
  type Outcome = { #ok : Nat; #noAccount; #tooLittle : { has : Nat } };

  var accounts : [Account] = [];

  func find(who : Principal) : ?Account {
    for (account in accounts.vals()) {
      if (account.owner == who) { return ?account };
    };
    null
  };

  public shared (message) func open() : async () {
    switch (find(message.caller)) {
      case null {
        let account : Account = { owner = message.caller; var balance = 0 };
        accounts := Array.tabulate<Account>(accounts.size() + 1, func i {
          if (i < accounts.size()) { accounts[i] } else { account }
        });
      };
      case (?_) {};
    };
  };

  public shared (message) func pay(to : Principal, amount : Nat) : async Outcome {
    switch (find(message.caller), find(to)) {
      case (?from, ?target) {
        if (from.balance < amount) { return #tooLittle { has = from.balance } };
        from.balance -= amount;
        target.balance += amount;
        #ok(from.balance)
      };
      case _ { #noAccount };
    };
  };

  public query func balance(who : Principal) : async ?Nat {
    do ? { (find(who)!).balance }
  };
};
