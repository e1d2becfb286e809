// Replays the log of a game by docs/GAME.md, in a simple way, and says `sound`, or the first line that is wrong.
//
//     g++ -std=c++17 -O2 bench/plain_replay.cpp -o plain_replay && ./plain_replay my.game my.log
//
// It is a baseline for `tac audit`, and shares nothing with it: each call of the 28 auctions is made again, and what the log should say of it
// is compared byte by byte; so are the posts and readings of the cash book, the scores with their certificates, and the head.
#include <algorithm>
#include <array>
#include <charconv>
#include <cstdint>
#include <fstream>
#include <iostream>
#include <map>
#include <sstream>
#include <stdexcept>
#include <string>
#include <string_view>
#include <vector>

using std::string, std::string_view, std::to_string, std::vector;
constexpr int GOODS = 28, AGENTS = 8, CLOCK = 8, HOUSE = 8;

struct Client { int arrive, depart, premium, values[3]; };

struct Game {
    int price[8], bound[8], closing[8], rooms[8], endow[AGENTS][GOODS] = {};
    uint32_t draws[8][54];  // of the ticks 1 to 53
    bool live = false;
    Client clients[AGENTS][8];
};

Game read_game(const char* file) {  // the file is assumed to be good
    Game game;
    std::fill(game.rooms, game.rooms + 8, 16);
    std::ifstream lines(file);
    for (string line, word; getline(lines, line);) {
        std::istringstream in(line);
        int agent, number;
        if (!(in >> word) || word[0] == '#') continue;
        if (word == "flight") {
            in >> number >> game.price[number] >> game.bound[number];
            for (int tick = 1; tick <= 53; tick++) in >> game.draws[number][tick];
        } else if (word == "close" || word == "rooms") {
            for (int& item : word == "close" ? game.closing : game.rooms) in >> item;
        } else if (word == "quotes") {
            game.live = in >> word && word == "live";
        } else if (word == "endow") {
            in >> agent;
            for (int good = 16; good < GOODS; good++) in >> game.endow[agent][good];
        } else if (word == "client") {
            in >> agent >> number;
            Client& client = game.clients[agent][number];
            in >> client.arrive >> client.depart >> client.premium >> client.values[0] >> client.values[1] >> client.values[2];
        }
    }
    return game;
}

// A line of the log, read from its start. A wrong line is thrown.
struct Line {
    long place;
    string_view rest;

    [[noreturn]] void bad(const string& what) const { throw std::runtime_error("line " + to_string(place) + ": " + what + " is due"); }

    bool skip(string_view word) {
        bool here = rest.substr(0, word.size()) == word;
        rest.remove_prefix(here ? word.size() : 0);
        return here;
    }

    Line& due(string_view word) {
        if (!skip(word)) bad("`" + string(word) + "`");
        return *this;
    }

    long number(long low, long high) {
        long number = 0;
        size_t size = std::from_chars(rest.data(), rest.data() + rest.size(), number).ptr - rest.data();
        if (number < low || number > high || to_string(number) != rest.substr(0, size)) bad("a number from " + to_string(low) + " to " + to_string(high));
        rest.remove_prefix(size);
        return number;
    }

    void end(string_view word = "") { rest == word ? void() : bad("`" + string(word) + "`"); }
};

struct Log {
    string text;
    size_t at = 0;
    long place = 0;

    Line next() {
        size_t end = text.find('\n', at), start = at;
        if (end == string::npos) Line{place + 1, ""}.bad("a line");
        at = end + 1;
        return {++place, string_view(text).substr(start, end - start)};
    }

    bool begins(string_view word) const { return text.compare(at, word.size(), word) == 0; }
};

struct Point { int units, price; };
struct Trade { int buyer, seller, units, price; };
struct Call { enum Kind { BID, WITHDRAW, OWN, UPDATE, PUBLISH, CLOSE } kind; vector<Point> points; long tick = 0, draw = 0; };

Call call_in(Line& line) {
    Call call{Call::BID, {}};
    if (line.skip("bid (")) {
        int all = 0;
        do {
            int units = line.due("(").number(-16, 16), price = line.due(" ").number(1, 10000);
            call.points.push_back({units, price});
            all += abs(units);
            if (units == 0 || all > 16) line.due(")").bad("a bid of 1 to 16 units");
        } while (line.due(")").skip(" "));
        line.due(")");
    } else if (line.skip("update ")) {
        call = {Call::UPDATE, {}, line.number(1, 53), 0};
        call.draw = line.due(" ").number(0, UINT32_MAX);
    } else {
        call.kind = line.skip("withdraw") ? Call::WITHDRAW : line.skip("own") ? Call::OWN : line.skip("publish") ? Call::PUBLISH : Call::CLOSE;
        if (call.kind == Call::CLOSE) line.due("close");
    }
    return call;
}

// What stands of an agent's bid. The units of a point with the lower indices go first.
struct Standing { long place = 0; vector<Point> points; };
struct Unit { int agent, price; long place; };

class Auction {
public:
    Auction(const Game& game, int good) : game(game), good(good), price(good < 8 ? game.price[good] : 0) {
        for (int agent = 0; agent < AGENTS; agent++) holding[agent] = game.endow[agent][good];
    }

    // The reply to the call at a position, as the log has it. `trades` then holds its trades.
    string act(long place, int caller, const Call& call) {
        trades.clear();
        string refusal = refused(caller, call);
        if (!refusal.empty()) return refusal;
        switch (call.kind) {
        case Call::OWN: return "own " + to_string(holding[caller]) + " " + text_of(stands[caller].points);
        case Call::WITHDRAW: stands[caller].points.clear(); return "done";
        case Call::UPDATE: price = next_price(call.tick, call.draw); sell_seats(); return "done";
        case Call::PUBLISH: price = ask(); return "done";
        case Call::CLOSE: return close();
        case Call::BID: break;
        }
        stands[caller] = {place, call.points};
        if (is_flight()) sell_seats();
        else if (!is_hotel()) match(caller);
        else if (game.live) price = ask();
        int bought = 0, sold = 0;
        for (const Trade& trade : trades) (trade.buyer == caller ? bought : sold) += trade.units;
        return "taken " + to_string(bought) + " " + to_string(sold);
    }

    vector<Trade> trades;
    long holding[AGENTS];

private:
    bool is_flight() const { return good < 8; }
    bool is_hotel() const { return good >= 8 && good < 16; }

    string refused(int caller, const Call& call) const {
        if (closed && call.kind != Call::OWN) return "no closed";
        bool agents = call.kind == Call::BID || call.kind == Call::WITHDRAW || call.kind == Call::OWN;
        if (agents != (caller != CLOCK) || (call.kind == Call::WITHDRAW && is_hotel()) || (call.kind == Call::UPDATE && !is_flight())
            || (call.kind == Call::PUBLISH && !is_hotel()))
            return "no wrongcall";
        if (call.kind == Call::WITHDRAW && stands[caller].points.empty()) return "no nobid";
        if (call.kind != Call::BID) return "";
        int highest_buy = 0, lowest_sell = 10001, offered = 0;
        for (const Point& point : call.points) {
            if (point.units > 0) highest_buy = std::max(highest_buy, point.price);
            else lowest_sell = std::min(lowest_sell, point.price);
            offered += point.price > price ? point.units : 0;
        }
        if (good < 16 && lowest_sell < 10001) return "no sell";
        if (good >= 16 && highest_buy >= lowest_sell) return "no selfcross";
        int need = is_hotel() ? std::max(1, winners()[caller]) : offered;
        return offered >= need ? "" : "no belowquote " + to_string(need) + " " + to_string(price + 1) + " " + to_string(offered);
    }

    // All standing units of a hotel, by falling price and then by the position of their bids.
    vector<Unit> units() const {
        vector<Unit> all;
        for (int agent = 0; agent < AGENTS; agent++)
            for (const Point& point : stands[agent].points) all.insert(all.end(), point.units, {agent, point.price, stands[agent].place});
        std::sort(all.begin(), all.end(), [](const Unit& a, const Unit& b) { return a.price != b.price ? a.price > b.price : a.place < b.place; });
        return all;
    }

    int ask() const {
        vector<Unit> all = units();
        int rooms = game.rooms[good - 8];
        return int(all.size()) < rooms ? 0 : all[rooms - 1].price;
    }

    // How many units each agent would get if the hotel closed now.
    std::array<int, AGENTS> winners() const {
        std::array<int, AGENTS> count = {};
        vector<Unit> all = units();
        for (int unit = 0; unit < std::min<int>(game.rooms[good - 8], all.size()); unit++) count[all[unit].agent]++;
        return count;
    }

    int next_price(long tick, long draw) const {
        long scaled = tick * (game.bound[good] - 10), limit = 10 + (scaled >= 0 ? scaled / 54 : -((53 - scaled) / 54));
        long low = limit < 0 ? limit : -10, high = limit > 0 ? limit : 10;
        return std::clamp(price + low + draw % (high - low + 1), 150L, 800L);
    }

    void sell_seats() {
        vector<Standing*> order;
        for (Standing& bid : stands) order.push_back(&bid);
        std::sort(order.begin(), order.end(), [](Standing* a, Standing* b) { return a->place < b->place; });
        for (Standing* bid : order)
            for (Point& point : bid->points)
                if (point.price >= price) {
                    trade({int(bid - &stands[0]), HOUSE, point.units, price});
                    point.units = 0;
                }
        drop_empty();
    }

    // The standing point of the other side that a unit of an agent meets first, and its owner.
    std::pair<Point*, int> best_other(int caller, int sign) {
        Point* best = nullptr;
        int whose = 0;
        for (int agent = 0; agent < AGENTS; agent++)
            for (Point& point : stands[agent].points) {
                if (agent == caller || point.units * sign >= 0) continue;
                int dearer = best ? (point.price - best->price) * sign : -1;
                if (dearer < 0 || (dearer == 0 && stands[agent].place < stands[whose].place)) best = &point, whose = agent;
            }
        return {best, whose};
    }

    void match(int caller) {
        for (Point& own : stands[caller].points)
            for (int sign = own.units > 0 ? 1 : -1; own.units != 0; own.units -= sign) {
                auto [other, agent] = best_other(caller, sign);
                if (!other || (own.price - other->price) * sign < 0) break;
                trade(sign > 0 ? Trade{caller, agent, 1, other->price} : Trade{agent, caller, 1, other->price});
                other->units += sign;
            }
        drop_empty();
    }

    string close() {
        int sold = 0;
        closed = true;
        if (is_hotel()) {
            price = ask();
            std::array<int, AGENTS> count = winners();
            for (int agent = 0; agent < AGENTS; sold += count[agent++])
                if (count[agent] > 0) trade({agent, HOUSE, count[agent], price});
        }
        for (Standing& bid : stands) bid.points.clear();
        return is_hotel() ? "sold " + to_string(sold) + " " + to_string(price) : "done";
    }

    void trade(const Trade& trade) {
        trades.push_back(trade);
        if (trade.buyer != HOUSE) holding[trade.buyer] += trade.units;
        if (trade.seller != HOUSE) holding[trade.seller] -= trade.units;
    }

    void drop_empty() {
        for (Standing& bid : stands)
            bid.points.erase(std::remove_if(bid.points.begin(), bid.points.end(), [](const Point& p) { return p.units == 0; }), bid.points.end());
    }

    static string text_of(const vector<Point>& points) {
        string text = "(";
        for (const Point& point : points) text += (text.size() > 1 ? " (" : "(") + to_string(point.units) + " " + to_string(point.price) + ")";
        return text + ")";
    }

    const Game& game;
    int good, price;  // for a hotel the published price
    bool closed = false;
    std::array<Standing, AGENTS> stands;
};

// The calls of the clock that the game's schedule has for a good, as the log has them.
vector<string> clock_calls(const Game& game, int good) {
    vector<string> calls;
    for (int tick = 1; tick <= 53 && good < 16; tick++) {
        bool closes = tick % 6 == 0 && game.closing[tick / 6 - 1] == good;
        if (good < 8) calls.push_back("update " + to_string(tick) + " " + to_string(game.draws[good][tick]));
        else if (tick % 6 == 0) calls.push_back(closes ? "close" : "publish");
        if (closes) return calls;
    }
    calls.push_back("close");
    return calls;
}

struct Replay {
    const Game& game;
    Log& log;
    bool served = false, seated[AGENTS] = {};
    long cash[AGENTS] = {}, holding[AGENTS][GOODS] = {};
    std::map<std::pair<int, long>, string> posts = {};  // the posts that are due and were not yet made

    void head() {
        log.next().end("taclog 1");
        served = log.begins("serve");
        log.next().end(served ? "serve" : "play");
        for (int link = 0; served && log.begins("link "); link++) {
            Line line = log.next().due("link " + to_string(link) + " ");
            string_view verdict = line.rest;
            if (link >= 64) line.bad("no more than 64 links");
            if (verdict == "syntax" || verdict == "wrongword" || verdict == "taken" || verdict == "lost") continue;
            bool& seat = seated[line.due("seated ").number(0, 7)];
            line.end();
            if (seat) line.bad("another seat");
            seat = true;
        }
        for (int agent = 0; agent < AGENTS; agent++) {
            if (!seated[agent]) continue;
            Line line = log.next().due("end " + to_string(agent) + " ");
            string_view cause = line.rest;
            if (cause != "quit" && cause != "end" && cause != "readfault" && cause != "writefault" && cause != "budget") line.bad("a cause");
        }
        if (served) numbered("missed ", 54);
    }

    long numbered(const string& word, long most) {
        Line line = log.next().due(word);
        long number = line.number(0, most);
        line.end();
        return number;
    }

    int caller_in(Line& line) {
        int caller = line.number(0, 8);
        if (served && caller < 8 && !seated[caller]) line.bad("another caller");
        line.due(" ");
        return caller;
    }

    // One line for each trade of an entry; their nets are what its post has.
    void settle(int good, long place, int caller, const vector<Trade>& trades) {
        long nets[9] = {};
        for (const Trade& trade : trades) {
            log.next().end("trade " + to_string(trade.buyer) + " " + to_string(trade.seller) + " " + to_string(trade.units) + " " + to_string(trade.price));
            nets[trade.buyer] -= trade.units * trade.price;
            nets[trade.seller] += trade.units * trade.price;
        }
        if (trades.empty()) return;
        string& post = posts[{good, place}];
        post = to_string(caller) + " post " + to_string(good) + " " + to_string(place);
        for (long net : nets) post += " " + to_string(net);
        for (int agent = 0; agent < AGENTS; agent++) cash[agent] += nets[agent];
    }

    void auction(int good) {
        long count = numbered("auction " + to_string(good) + " ", 8256), calls[9] = {};
        Auction auction(game, good);
        vector<string> scheduled = clock_calls(game, good);
        scheduled.resize(65);
        for (long place = 0; place < count; place++) {
            Line line = log.next();
            int caller = caller_in(line);
            string_view text = line.rest;
            Call call = call_in(line);
            text.remove_suffix(line.rest.size());
            if (++calls[caller] > (caller == CLOCK ? 64 : 1024)) line.bad("no further call of this caller");
            if (caller == CLOCK && text != scheduled[calls[CLOCK] - 1]) line.bad("another call of the clock");
            line.due(" = ").end(auction.act(place, caller, call));
            settle(good, place, caller, auction.trades);
        }
        if (!scheduled[calls[CLOCK]].empty()) Line{log.place, ""}.bad("one more call of the clock");
        for (int agent = 0; agent < AGENTS; agent++) holding[agent][good] = auction.holding[agent];
    }

    void cash_book() {
        long count = numbered("cash ", 238048), posted[9] = {};
        for (long place = 0; place < count; place++) {
            Line line = log.next(), whole = line;
            int caller = caller_in(line);
            if (caller != CLOCK && line.skip("read = ")) {
                line.end(to_string(posted[caller]));
                continue;
            }
            int good = line.due("post ").number(0, 27);
            auto post = posts.find({good, line.due(" ").number(0, 8255)});
            if (post == posts.end()) line.bad("the post of another entry");
            whole.end(post->second);
            for (long& sum : posted) sum += line.due(" ").number(INT64_MIN, INT64_MAX);
            posts.erase(post);
        }
        if (!posts.empty()) Line{log.place, ""}.bad("after it `" + posts.begin()->second + "`");
    }
};

// The packages of the game, with the goods that each uses and its four features: the trip, and the night of each type of ticket.
struct Package { int hotel = 0, come = 0, go = 0, features[4] = {}; vector<int> goods = {}; };

vector<Package> all_packages() {
    vector<Package> all(1);  // the first is the empty package
    for (int hotel = 0; hotel < 2; hotel++)
        for (int come = 1, trip = 1 + 10 * hotel; come <= 4; come++)
            for (int go = come + 1; go <= 5; go++, trip++)
                for (int code = 0; code < 125; code++) {
                    Package package{hotel, come, go, {trip, code / 25, code / 5 % 5, code % 5}, {come - 1, go + 2}};
                    int* nights = package.features + 1;
                    bool fits = true;
                    for (int night = come; night < go; night++) package.goods.push_back(8 + 4 * hotel + night - 1);
                    for (int kind = 0; kind < 3; kind++) {
                        if (nights[kind] == 0) continue;
                        fits = fits && nights[kind] >= come && nights[kind] < go && std::count(nights, nights + kind, nights[kind]) == 0;
                        package.goods.push_back(16 + 4 * kind + nights[kind] - 1);
                    }
                    if (fits) all.push_back(package);
                }
    return all;
}

string text_of(const Package& package) {
    if (package.come == 0) return "none";
    string text = to_string(package.hotel) + " " + to_string(package.come) + " " + to_string(package.go);
    for (int kind = 1; kind <= 3; kind++) text += " " + to_string(package.features[kind]);
    return text;
}

long worth(const Client& client, const Package& package) {
    if (package.come == 0) return 0;
    long sum = 1000 - 100 * (abs(package.come - client.arrive) + abs(package.go - client.depart)) + package.hotel * client.premium;
    for (int kind = 0; kind < 3; kind++) sum += package.features[kind + 1] ? client.values[kind] : 0;
    return sum;
}

struct Sheet {
    Replay& replay;
    Log& log;
    vector<Package> packages = all_packages();
    int fixed[8][4] = {};  // for each client the features fixed by splits above, -1 for none

    void score(int agent) {
        Line line = log.next().due("score " + to_string(agent) + " ");
        long best = line.number(0, 14000), cash = replay.cash[agent], owed = 0;
        for (int good = 16; good < GOODS; good++) owed += std::max(0L, -replay.holding[agent][good]);
        line.end(" " + to_string(cash) + " " + to_string(owed) + " " + to_string(best + cash - 200 * owed));
        if (allocation(agent) != best) line.bad("what the packages are worth");
        long lines = replay.numbered("cert " + to_string(agent) + " ", UINT32_MAX);
        std::fill(&fixed[0][0], &fixed[0][0] + 32, -1);
        if (node(agent, best, 0) != lines) Line{log.place, ""}.bad("the end of the certificate at another line");
    }

    long allocation(int agent) {
        long total = 0, used[GOODS] = {};
        for (int client = 0; client < 8; client++) {
            Line line = log.next().due("package " + to_string(agent) + " " + to_string(client) + " ");
            auto package = std::find_if(packages.begin(), packages.end(), [&](const Package& p) { return text_of(p) == line.rest; });
            if (package == packages.end()) line.bad("a package");
            total += worth(replay.game.clients[agent][client], *package);
            for (int good : package->goods)
                if (++used[good] > replay.holding[agent][good]) line.bad("a package of goods that are held");
        }
        return total;
    }

    // A node of a certificate and those below it. Returns the number of their lines.
    long node(int agent, long claim, int depth) {
        Line line = log.next();
        if (!line.skip("split ")) return leaf(line.due("leaf"), agent, claim);
        int client = line.number(0, 7), feature = line.due(" ").number(0, 3), before = fixed[client][feature];
        line.end();
        if (depth == 32) line.bad("a leaf");
        long lines = 1;
        for (int value = 0; value < (feature ? 5 : 21); value++) {
            fixed[client][feature] = before < 0 || before == value ? value : 99;  // 99 is no value, and leaves no package
            lines += node(agent, claim, depth + 1);
        }
        fixed[client][feature] = before;
        return lines;
    }

    long leaf(Line& line, int agent, long claim) {
        long prices[GOODS], bound = 0;
        for (int good = 0; good < GOODS; good++) {
            prices[good] = line.due(" ").number(0, 14001);
            bound += prices[good] * std::max(0L, replay.holding[agent][good]);
        }
        line.end();
        for (int client = 0; client < 8; client++) {
            long best = INT64_MIN;
            for (const Package& package : packages) {
                bool left = true;
                for (int feature = 0; feature < 4; feature++)
                    left = left && (fixed[client][feature] < 0 || fixed[client][feature] == package.features[feature]);
                if (!left) continue;
                long margin = worth(replay.game.clients[agent][client], package);
                for (int good : package.goods) margin -= prices[good];
                best = std::max(best, margin);
            }
            if (best == INT64_MIN) return 1;  // a client has no package left, so the leaf holds
            bound += best;
        }
        if (bound > claim) line.bad("a leaf that holds");
        return 1;
    }
};

int main(int count, char** words) {
    if (count != 3) return std::cerr << "usage: plain_replay GAME LOG\n", 2;
    Game game = read_game(words[1]);
    std::ostringstream text;
    text << std::ifstream(words[2], std::ios::binary).rdbuf();
    Log log{text.str()};
    Replay replay{game, log};
    Sheet sheet{replay, log};
    try {
        replay.head();
        for (int good = 0; good < GOODS; good++) replay.auction(good);
        replay.cash_book();
        log.next().end("sheet");
        for (int agent = 0; agent < AGENTS; agent++) sheet.score(agent);
        log.next().end("end");
        if (log.at != log.text.size()) Line{log.place + 1, ""}.bad("nothing more");
    } catch (const std::runtime_error& fault) {
        return std::cout << fault.what() << "\n", 1;
    }
    std::cout << "sound\n";
}
