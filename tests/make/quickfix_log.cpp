// Writes a message log with QuickFIX: an acceptor and an initiator on loopback, each with a FileStore, numbers skipped.
// tests/make/quickfix_log.sh compiles and runs it.
#include <quickfix/Application.h>
#include <quickfix/FileStore.h>
#include <quickfix/Message.h>
#include <quickfix/Session.h>
#include <quickfix/SessionSettings.h>
#include <quickfix/SocketAcceptor.h>
#include <quickfix/SocketInitiator.h>
#include <chrono>
#include <sstream>
#include <string>
#include <thread>

struct Quiet : FIX::Application {
    void onCreate(const FIX::SessionID&) override {}
    void onLogon(const FIX::SessionID&) override {}
    void onLogout(const FIX::SessionID&) override {}
    void toAdmin(FIX::Message&, const FIX::SessionID&) override {}
    void toApp(FIX::Message&, const FIX::SessionID&) throw(FIX::DoNotSend) override {}
    void fromAdmin(const FIX::Message&, const FIX::SessionID&)
        throw(FIX::FieldNotFound, FIX::IncorrectDataFormat, FIX::IncorrectTagValue, FIX::RejectLogon) override {}
    void fromApp(const FIX::Message&, const FIX::SessionID&)
        throw(FIX::FieldNotFound, FIX::IncorrectDataFormat, FIX::IncorrectTagValue, FIX::UnsupportedMessageType) override {}
};

static FIX::SessionSettings settings(const std::string& kind, const std::string& from, const std::string& to, const std::string& folder) {
    std::stringstream text;
    text << "[DEFAULT]\nConnectionType=" << kind << "\nReconnectInterval=1\nFileStorePath=" << folder
         << "\nStartTime=00:00:00\nEndTime=00:00:00\nUseDataDictionary=N\nHeartBtInt=30\n"
         << "SocketAcceptPort=5807\nSocketConnectHost=127.0.0.1\nSocketConnectPort=5807\nSocketReuseAddress=Y\n"
         << "[SESSION]\nBeginString=FIX.4.4\nSenderCompID=" << from << "\nTargetCompID=" << to << "\n";
    return FIX::SessionSettings(text);
}

static void wait() { std::this_thread::sleep_for(std::chrono::milliseconds(300)); }

int main(int argc, char** argv) {
    const std::string folder = argc > 1 ? argv[1] : ".";
    Quiet ours, theirs;
    FIX::SessionSettings a = settings("acceptor", "VENUE", "BROKER", folder + "/venue");
    FIX::SessionSettings i = settings("initiator", "BROKER", "VENUE", folder + "/broker");
    FIX::FileStoreFactory stores_a(a), stores_i(i);
    FIX::SocketAcceptor acceptor(theirs, stores_a, a);
    FIX::SocketInitiator initiator(ours, stores_i, i);
    acceptor.start();
    initiator.start();
    const FIX::SessionID id("FIX.4.4", "BROKER", "VENUE");
    FIX::Session* session = FIX::Session::lookupSession(id);
    while (!session->isLoggedOn()) wait();
    for (int n = 0; n < 12; ++n) {
        // Numbers are skipped before the fourth, seventh and tenth order.
        if (n == 3 || n == 6 || n == 9) session->setNextSenderMsgSeqNum(session->getExpectedSenderNum() + n);
        FIX::Message order;
        order.getHeader().setField(35, "D");
        order.setField(11, "ORDER-" + std::to_string(n));
        order.setField(55, "MSFT");
        order.setField(54, n % 2 ? "2" : "1");
        order.setField(38, std::to_string(100 * (n + 1)));
        order.setField(58, std::string(40 * n + 1, 'a' + n) + "=x");
        FIX::Session::sendToTarget(order, id);
        wait();
    }
    initiator.stop();
    acceptor.stop();
}
