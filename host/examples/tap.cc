// A card tapped from C++: a fresh one from the sheet on standard input, then CREATE_WALLET.
#include <cstdio>
#include <iostream>
#include <iterator>
#include <random>
#include <stdexcept>
#include <string>
#include <vector>

#include "practice.h"
#include "practice_request.h"
#include "practice_view.h"
#include "provider.h"

using bytes = std::vector<std::uint8_t>;

// What a tap gives: the response, its status word, and the check that refused, 0 where none did (PRACTICE_CHECK_LENGTH and so on).
struct answer {
    bytes response;
    int word, reason;
};

// A card in a reader. The image is the card, and all that is kept of it.
class card {
public:
    explicit card(const std::string &sheet) : image(PRACTICE_IMAGE_ROOM)
    {
        auto text = reinterpret_cast<const std::uint8_t *>(sheet.data());
        if (practice_personalise(text, sheet.size(), image.data(), image.size()) != 0)
            throw std::runtime_error("the sheet is bad");
        image.resize(practice_image_length());
    }

    answer tap(const bytes &request)
    {
        bytes draw(PRACTICE_DRAW), questions(PRACTICE_ROOM), answers(PROVIDER_ROOM), response(PRACTICE_ROOM), next(PRACTICE_IMAGE_ROOM);
        const std::uint8_t *cid = practice_view(image.data(), PRACTICE_VIEW_CID).bytes;
        std::size_t answers_len = 0;
        std::random_device chance;
        for (auto &byte : draw)
            byte = static_cast<std::uint8_t>(chance());
        practice_result asked = practice_ask(image.data(), image.size(), request.data(), request.size(), draw.data(), draw.size(),
                                             questions.data(), questions.size());
        if (asked.number != PRACTICE_DONE || provider_answer(seed, sizeof seed, cid, questions.data(), asked.length, answers.data(),
                                                             answers.size(), &answers_len) != PROVIDER_DONE)
            throw std::runtime_error("no tap");
        practice_result done = practice_settle(image.data(), image.size(), request.data(), request.size(), draw.data(), draw.size(),
                                               answers.data(), answers_len, response.data(), response.size(), next.data(), next.size());
        if (done.number != PRACTICE_DONE)
            throw std::runtime_error("no tap");
        image.assign(next.begin(), next.begin() + image.size());
        response.resize(done.length);
        return {response, done.word, done.reason};
    }

    // As long as the card makes its holder wait it wants the same bytes again.
    answer tap_to_the_end(const bytes &request)
    {
        answer got = tap(request);
        while (got.word == PRACTICE_SW_NEED_PAUSE)
            got = tap(request);
        return got;
    }

    answer create_wallet()
    {
        bytes request(PRACTICE_REQUEST_ROOM);
        practice_codes codes = practice_codes_of(image.data());
        request.resize(practice_request_create_wallet(request.data(), request.size(), &codes));
        return tap_to_the_end(request);
    }

    std::uint32_t remaining() const { return practice_view_number(image.data(), PRACTICE_VIEW_REMAINING); }

private:
    static constexpr std::uint8_t seed[] = {'p', 'r', 'a', 'c', 't', 'i', 'c', 'e'};
    bytes image;
};

int main()
{
    std::string sheet(std::istreambuf_iterator<char>(std::cin), {});
    try {
        card one(sheet);
        answer created = one.create_wallet();
        for (int byte : created.response)
            std::printf("%02X", byte);
        std::printf("\n");
        if (created.reason != 0)
            std::printf("refused by check %d\n", created.reason);
        std::printf("Remaining %u\n", one.remaining());
    } catch (const std::exception &wrong) {
        std::cerr << wrong.what() << '\n';
        return 1;
    }
}
