--  The receiver for C (examples/c/yelunnavi.h), for Ada: the same calls, with the same units, answers and conditions. Each
--  handle is a limited record, so it can't be copied.
with Interfaces; use Interfaces;
with Interfaces.C; use Interfaces.C;
with System;

package Yelunnavi is
   type Receiver is limited record Room : System.Address; end record with Convention => C;
   type End_System is limited record Room : System.Address; end record with Convention => C;
   type Pass is limited record Room : System.Address; end record with Convention => C;
   type Reader is limited record Room : System.Address; end record with Convention => C;
   type Queue is limited record Room : System.Address; end record with Convention => C;

   --  The number of this interface: raised with each change of a struct, a call or a number. Library_Abi has the library's.
   Abi : constant Unsigned_32 := 9;

   subtype Code is Unsigned_32;
   Done : constant Code := 0;
   Not_Open : constant Code := 1;
   Already_Open : constant Code := 2;
   Faulty : constant Code := 3;
   No_Memory : constant Code := 4;
   No_Network : constant Code := 5;
   No_Kind : constant Code := 6;
   No_Place : constant Code := 7;
   No_Name : constant Code := 8;
   None_Left : constant Code := 9;
   Holds_One : constant Code := 10;
   Holds_None : constant Code := 11;
   Out_Of_Range : constant Code := 12;
   Too_Short : constant Code := 13;
   Not_Made : constant Code := 14;
   No_Room : constant Code := 15;
   Busy : constant Code := 16;
   Stray_Key : constant Code := 17;

   Network_A : constant Unsigned_32 := 0;
   Network_B : constant Unsigned_32 := 1;

   --  What became of a frame: the kind of its verdict. Those from Verdict_Too_Long on name a port.
   Verdict_Filtered : constant Unsigned_32 := 0;
   Verdict_Out_Of_Sequence : constant Unsigned_32 := 1;
   Verdict_Redundant : constant Unsigned_32 := 2;
   Verdict_Bad_Header : constant Unsigned_32 := 3;
   Verdict_Bad_Fragment : constant Unsigned_32 := 4;
   Verdict_Fragment_Held : constant Unsigned_32 := 5;
   Verdict_Bad_Udp : constant Unsigned_32 := 6;
   Verdict_No_Port : constant Unsigned_32 := 7;
   Verdict_Too_Long : constant Unsigned_32 := 8;
   Verdict_Fragmented_Sample : constant Unsigned_32 := 9;
   Verdict_Sampled : constant Unsigned_32 := 10;
   Verdict_Queued : constant Unsigned_32 := 11;
   Verdict_Overflow : constant Unsigned_32 := 12;
   Verdict_Exhausted : constant Unsigned_32 := 13;

   --  Why a frame was filtered.
   Filter_Too_Short : constant Unsigned_32 := 1;
   Filter_Too_Long : constant Unsigned_32 := 2;
   Filter_Not_Ip : constant Unsigned_32 := 3;
   Filter_Foreign_Constant : constant Unsigned_32 := 4;
   Filter_Unknown_Link : constant Unsigned_32 := 5;

   --  The fault of a bad IPv4 header.
   Bad_Version : constant Unsigned_32 := 1;
   Bad_Header_Length : constant Unsigned_32 := 2;
   Bad_Total_Length : constant Unsigned_32 := 3;
   Bad_Checksum : constant Unsigned_32 := 4;
   Bad_Protocol : constant Unsigned_32 := 5;

   --  The fault of a configuration, its key, and what it is about.
   Fault_Text : constant Unsigned_32 := 1;
   Fault_Missing : constant Unsigned_32 := 2;
   Fault_Kind : constant Unsigned_32 := 3;
   Fault_Range : constant Unsigned_32 := 4;
   Fault_Double_Link : constant Unsigned_32 := 5;
   Fault_Double_Port : constant Unsigned_32 := 6;
   Fault_Double_Name : constant Unsigned_32 := 7;
   Fault_Too_Many : constant Unsigned_32 := 8;

   Key_None : constant Unsigned_32 := 0;
   Key_Constant : constant Unsigned_32 := 1;
   Key_Link : constant Unsigned_32 := 2;
   Key_Vl : constant Unsigned_32 := 3;
   Key_Skew_Max_Us : constant Unsigned_32 := 4;
   Key_Redundancy : constant Unsigned_32 := 5;
   Key_Reassembly_Us : constant Unsigned_32 := 6;
   Key_Window : constant Unsigned_32 := 7;
   Key_Port : constant Unsigned_32 := 8;
   Key_Name : constant Unsigned_32 := 9;
   Key_Kind : constant Unsigned_32 := 10;
   Key_Address : constant Unsigned_32 := 11;
   Key_Udp : constant Unsigned_32 := 12;
   Key_Max : constant Unsigned_32 := 13;
   Key_Refresh_Us : constant Unsigned_32 := 14;
   Key_Depth : constant Unsigned_32 := 15;
   Key_Readers : constant Unsigned_32 := 16;

   Level_Document : constant Unsigned_32 := 0;
   Level_Link : constant Unsigned_32 := 1;
   Level_Port : constant Unsigned_32 := 2;

   Service_Sampling : constant Unsigned_32 := 1;
   Service_Queuing : constant Unsigned_32 := 2;

   --  Octets that are enough for a slot with every library of this interface's number, for static rooms.
   Receiver_Octets : constant size_t := 512;
   End_System_Octets : constant size_t := 1024;
   Pass_Octets : constant size_t := 512;
   Reader_Octets : constant size_t := 128;
   Queue_Octets : constant size_t := 128;

   --  Bounds, for room of the program's.
   Most_Links : constant := 64;
   Most_Ports : constant := 32;
   Most_Readers : constant := 8;
   Longest_Name : constant := 16;
   Longest_Sample : constant := 1471;
   Longest_Queued : constant := 8192;
   Deepest_Queue : constant := 64;

   type Fault_Reply is record
      Fault, Key, Level : Unsigned_32; Link, Port : size_t; Line : Unsigned_64;
   end record with Convention => C;
   type Verdict_Reply is record
      Kind, Cause : Unsigned_32; Link : size_t; Vl, Port : Unsigned_32; Place, Number : Unsigned_64;
   end record with Convention => C;
   type Read_Reply is record Found, Valid : Unsigned_32; Number, Time : Unsigned_64; Length : size_t; end record with Convention => C;
   type Take_Reply is record
      Found : Unsigned_32; Time : Unsigned_64; Length : size_t; Lost : Unsigned_64;
   end record with Convention => C;
   type Link_Reply is record
      Vl, Redundancy : Unsigned_32; Skew_Max, Reassembly : Unsigned_64; Window : Unsigned_32; Ports : size_t;
   end record with Convention => C;
   type Health_Reply is record
      Came_A, Came_B : Unsigned_32; Latest_A, Latest_B, Given_Up : Unsigned_64;
   end record with Convention => C;
   type Link_Health_Reply is record
      Came : Unsigned_32; Latest, Received, Given_Up : Unsigned_64;
   end record with Convention => C;
   type Port_Counts_Reply is record
      Delivered, Overflowed, Too_Long, Fragmented : Unsigned_64; Came, Net : Unsigned_32; Latest : Unsigned_64;
   end record with Convention => C;
   type Fill_Reply is record Waiting, Greatest : size_t; end record with Convention => C;
   type Port_Reply is record
      Service, Address, Udp, Max : Unsigned_32; Limit : Unsigned_64; Name_Length : size_t;
   end record with Convention => C;
   type Place_Reply is record Link : size_t; Port : Unsigned_32; end record with Convention => C;
   type Held_Octets is record Where : access constant Unsigned_8; Length : size_t; end record with Convention => C;
   type Limit_Reply is record Max : size_t; Refresh : Unsigned_64; end record with Convention => C;

   type Octets is array (size_t range <>) of aliased Unsigned_8 with Convention => C;
   subtype Name_Octets is Octets (0 .. 15);

   --  A table: links, and their ports one after another.
   type Link_Row is record
      Vl, Redundancy : Unsigned_32; Skew_Max, Reassembly : Unsigned_64; Window : Unsigned_32; Ports : size_t;
   end record with Convention => C;
   type Port_Row is record
      Service, Address, Udp, Max : Unsigned_32; Limit : Unsigned_64; Name_Length : size_t; Name : Name_Octets;
      Readers : Unsigned_32;
   end record with Convention => C;
   type Link_Rows is array (size_t range <>) of aliased Link_Row with Convention => C;
   type Port_Rows is array (size_t range <>) of aliased Port_Row with Convention => C;

   function Library_Abi return Unsigned_32 with Import, Convention => C, External_Name => "yelunnavi_abi";
   function Check_Text (Text : Octets; Length : size_t; Fault : in out Fault_Reply) return Code
     with Import, Convention => C, External_Name => "yelunnavi_check_text";
   function Receiver_Room return size_t with Import, Convention => C, External_Name => "yelunnavi_receiver_room";
   function End_System_Room return size_t with Import, Convention => C, External_Name => "yelunnavi_system_room";
   function Pass_Room return size_t with Import, Convention => C, External_Name => "yelunnavi_pass_room";
   function Reader_Room return size_t with Import, Convention => C, External_Name => "yelunnavi_reader_room";
   function Queue_Room return size_t with Import, Convention => C, External_Name => "yelunnavi_queue_room";
   procedure Receiver_Make (Room : System.Address) with Import, Convention => C, External_Name => "yelunnavi_receiver_make";
   procedure End_System_Make (Room : System.Address) with Import, Convention => C, External_Name => "yelunnavi_system_make";
   procedure Pass_Make (Room : System.Address) with Import, Convention => C, External_Name => "yelunnavi_pass_make";
   procedure Reader_Make (Room : System.Address) with Import, Convention => C, External_Name => "yelunnavi_reader_make";
   procedure Queue_Make (Room : System.Address) with Import, Convention => C, External_Name => "yelunnavi_queue_make";

   --  Makes a slot in which nothing is open in a room of so many octets, and the handle to it. No_Room if the room is null or
   --  isn't aligned to 8, Too_Short if a slot needs more octets; then each further call on the handle answers Not_Made.
   function Init (H : out Receiver; Room : System.Address; Length : size_t) return Code;
   function Init (H : out End_System; Room : System.Address; Length : size_t) return Code;
   function Init (H : out Pass; Room : System.Address; Length : size_t) return Code;
   function Init (H : out Reader; Room : System.Address; Length : size_t) return Code;
   function Init (H : out Queue; Room : System.Address; Length : size_t) return Code;

   function Open
     (H : in out Receiver; Text : Octets; Length, Readers : size_t; Fault : in out Fault_Reply) return Code
     with Import, Convention => C, External_Name => "yelunnavi_receiver_open";
   function Open_Table
     (H : in out Receiver; Constant_Field : Octets; Links : Link_Rows; Links_Length : size_t; Ports : Port_Rows;
      Ports_Length, Readers : size_t; Fault : in out Fault_Reply) return Code
     with Import, Convention => C, External_Name => "yelunnavi_receiver_open_table";
   procedure Close (H : in out Receiver) with Import, Convention => C, External_Name => "yelunnavi_receiver_close";
   function Receive
     (H : in out Receiver; Net : Unsigned_32; Now : Unsigned_64; Frame : Octets; Length : size_t; Reply : in out Verdict_Reply) return Code
     with Import, Convention => C, External_Name => "yelunnavi_receiver_receive";
   function Count
     (H : in out Receiver; Link : size_t; Net, Kind : Unsigned_32; Count : in out Unsigned_64) return Code
     with Import, Convention => C, External_Name => "yelunnavi_receiver_count";
   function Filtered (H : in out Receiver; Net, Cause : Unsigned_32; Count : in out Unsigned_64) return Code
     with Import, Convention => C, External_Name => "yelunnavi_receiver_filtered";
   function Health (H : in out Receiver; Link : size_t; Reply : in out Health_Reply) return Code
     with Import, Convention => C, External_Name => "yelunnavi_receiver_health";
   function Port_Counts (H : in out Receiver; Link, Port : size_t; Reply : in out Port_Counts_Reply) return Code
     with Import, Convention => C, External_Name => "yelunnavi_receiver_port_counts";
   function Fill (H : in out Receiver; Link, Port : size_t; Reply : in out Fill_Reply) return Code
     with Import, Convention => C, External_Name => "yelunnavi_receiver_fill";
   function Links (H : in out Receiver; Links : in out size_t) return Code
     with Import, Convention => C, External_Name => "yelunnavi_receiver_links";
   function Link (H : in out Receiver; Link : size_t; Reply : in out Link_Reply) return Code
     with Import, Convention => C, External_Name => "yelunnavi_receiver_link";
   function Port (H : in out Receiver; Link, Port : size_t; Reply : in out Port_Reply; Name : in out Name_Octets) return Code
     with Import, Convention => C, External_Name => "yelunnavi_receiver_port";
   function Place (H : in out Receiver; Name : Octets; Length : size_t; Reply : in out Place_Reply) return Code
     with Import, Convention => C, External_Name => "yelunnavi_receiver_place";
   function Hand_Reader (H : in out Receiver; To : in out Reader; Name : Octets; Length : size_t) return Code
     with Import, Convention => C, External_Name => "yelunnavi_receiver_hand_reader";
   function Hand_Queue (H : in out Receiver; To : in out Queue; Name : Octets; Length : size_t) return Code
     with Import, Convention => C, External_Name => "yelunnavi_receiver_hand_queue";

   --  A receiver for two threads, and the pass of each network: see BUSY in the header.
   function Open
     (H : in out End_System; Text : Octets; Length, Readers : size_t; Fault : in out Fault_Reply) return Code
     with Import, Convention => C, External_Name => "yelunnavi_system_open";
   function Open_Table
     (H : in out End_System; Constant_Field : Octets; Links : Link_Rows; Links_Length : size_t; Ports : Port_Rows;
      Ports_Length, Readers : size_t; Fault : in out Fault_Reply) return Code
     with Import, Convention => C, External_Name => "yelunnavi_system_open_table";
   procedure Close (H : in out End_System) with Import, Convention => C, External_Name => "yelunnavi_system_close";
   function Hand_Pass (H : in out End_System; Net : Unsigned_32; To : in out Pass) return Code
     with Import, Convention => C, External_Name => "yelunnavi_system_hand_pass";
   function Links (H : in out End_System; Links : in out size_t) return Code
     with Import, Convention => C, External_Name => "yelunnavi_system_links";
   function Link (H : in out End_System; Link : size_t; Reply : in out Link_Reply) return Code
     with Import, Convention => C, External_Name => "yelunnavi_system_link";
   function Port (H : in out End_System; Link, Port : size_t; Reply : in out Port_Reply; Name : in out Name_Octets) return Code
     with Import, Convention => C, External_Name => "yelunnavi_system_port";
   function Place (H : in out End_System; Name : Octets; Length : size_t; Reply : in out Place_Reply) return Code
     with Import, Convention => C, External_Name => "yelunnavi_system_place";
   function Hand_Reader (H : in out End_System; To : in out Reader; Name : Octets; Length : size_t) return Code
     with Import, Convention => C, External_Name => "yelunnavi_system_hand_reader";
   function Hand_Queue (H : in out End_System; To : in out Queue; Name : Octets; Length : size_t) return Code
     with Import, Convention => C, External_Name => "yelunnavi_system_hand_queue";

   function Receive
     (H : in out Pass; Now : Unsigned_64; Frame : Octets; Length : size_t; Reply : in out Verdict_Reply) return Code
     with Import, Convention => C, External_Name => "yelunnavi_pass_receive";
   function Count (H : in out Pass; Link : size_t; Kind : Unsigned_32; Count : in out Unsigned_64) return Code
     with Import, Convention => C, External_Name => "yelunnavi_pass_count";
   function Health (H : in out Pass; Link : size_t; Reply : in out Link_Health_Reply) return Code
     with Import, Convention => C, External_Name => "yelunnavi_pass_health";
   function Port_Counts (H : in out Pass; Link, Port : size_t; Reply : in out Port_Counts_Reply) return Code
     with Import, Convention => C, External_Name => "yelunnavi_pass_port_counts";
   function Fill (H : in out Pass; Link, Port : size_t; Reply : in out Fill_Reply) return Code
     with Import, Convention => C, External_Name => "yelunnavi_pass_fill";
   function Filtered (H : in out Pass; Cause : Unsigned_32; Count : in out Unsigned_64) return Code
     with Import, Convention => C, External_Name => "yelunnavi_pass_filtered";
   procedure Close (H : in out Pass) with Import, Convention => C, External_Name => "yelunnavi_pass_close";

   function Read
     (H : in out Reader; Now : Unsigned_64; Into : in out Octets; Length : size_t; Reply : in out Read_Reply) return Code
     with Import, Convention => C, External_Name => "yelunnavi_reader_read";
   function Hold (H : in out Reader; Now : Unsigned_64; Reply : in out Read_Reply) return Code
     with Import, Convention => C, External_Name => "yelunnavi_reader_hold";
   function Octets_Held (H : in out Reader; Octets : in out Held_Octets) return Code
     with Import, Convention => C, External_Name => "yelunnavi_reader_octets";
   function Copy (H : in out Reader; First : size_t; Into : in out Octets; Length : size_t) return Code
     with Import, Convention => C, External_Name => "yelunnavi_reader_copy";
   function Release (H : in out Reader) return Code
     with Import, Convention => C, External_Name => "yelunnavi_reader_release";
   function Limits (H : in out Reader; Reply : in out Limit_Reply) return Code
     with Import, Convention => C, External_Name => "yelunnavi_reader_limits";
   procedure Close (H : in out Reader) with Import, Convention => C, External_Name => "yelunnavi_reader_close";

   function Take (H : in out Queue; Into : in out Octets; Length : size_t; Reply : in out Take_Reply) return Code
     with Import, Convention => C, External_Name => "yelunnavi_queue_take";
   function Waiting (H : in out Queue; Waiting : in out size_t) return Code
     with Import, Convention => C, External_Name => "yelunnavi_queue_waiting";
   function Longest (H : in out Queue; Max : in out size_t) return Code
     with Import, Convention => C, External_Name => "yelunnavi_queue_longest";
   procedure Close (H : in out Queue) with Import, Convention => C, External_Name => "yelunnavi_queue_close";
end Yelunnavi;
