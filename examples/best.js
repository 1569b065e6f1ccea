// Speculation: several offers are applied to the same basket, each in a world of its own, and compared by what they lead
// to. The best one is committed. The others have never happened.

var basket = {tea: 12, cup: 30, tray: 25};

var offers = [
  {name: "half the cup", apply: function () { basket.cup = basket.cup / 2; }},
  {name: "no tray", apply: function () { delete basket.tray; basket.hook = 9; }},
  {name: "the tea for nothing, and 5 off the rest", apply: function () {
    for (var thing in basket) basket[thing] = thing == "tea" ? 0 : basket[thing] - 5;
  }},
  {name: "a third off the cups, for two", apply: function () { basket.cup = 2 * (basket.cup - basket.cup / 3); }}
];

function total() {
  var sum = 0;
  for (var thing in basket) sum += basket[thing];
  return sum;
}

function show() {
  for (var thing in basket) print("  " + thing + " " + basket[thing]);
  print("  total " + total());
}

function priceIn(world, offer) {
  in world { offer.apply(); return total(); }
}

print("the basket");
show();
var best = thisWorld.sprout(), least = total(), chosen = "none";
for (var k = 0; k < offers.length; k++) {
  var world = thisWorld.sprout(), price = priceIn(world, offers[k]);
  print(offers[k].name + ": " + price);
  if (price < least) { best = world; least = price; chosen = offers[k].name; }
}
best.commit();
print("with the best, " + chosen);
show();
