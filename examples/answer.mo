actor { public query func answer() : async Nat { 42 } }
