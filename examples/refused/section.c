__attribute__((section("mine"))) int place;
