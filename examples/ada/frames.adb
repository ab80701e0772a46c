--  Two samples for "pos" and their copies on B, then two messages for "nav": what becomes of each, and what the ends find.
with Ada.Text_IO; use Ada.Text_IO;
with Interfaces; use Interfaces;
with Interfaces.C; use Interfaces.C;
with System.Storage_Elements; use System.Storage_Elements;
with Yelunnavi; use Yelunnavi;

procedure Frames is
   Newline : constant Character := Character'Val (10);
   Text : constant String :=
     "[[link]]" & Newline & "vl = 17" & Newline & "skew_max_us = 1000" & Newline & "reassembly_us = 50000" & Newline
     & "[[link.port]]" & Newline & "name = ""pos""" & Newline & "kind = ""sampling""" & Newline
     & "address = ""224.224.0.17""" & Newline & "udp = 5000" & Newline & "refresh_us = 20000" & Newline
     & "[[link.port]]" & Newline & "name = ""nav""" & Newline & "kind = ""queuing""" & Newline
     & "address = ""224.224.0.17""" & Newline & "udp = 5002" & Newline & "max = 64" & Newline & "depth = 4" & Newline;

   Receiver_Space, Reader_Space, Queue_Space : Storage_Array (1 .. 512) with Alignment => 8;
   Link_17 : Receiver; Pos : Reader; Nav : Queue;
   Frame : Octets (0 .. 59) := [others => 7];
   Start : constant Octets (0 .. 41) :=
     [3, 0, 0, 0, 0, 16#11#, 2, 0, 0, 0, 1, 16#20#, 8, 0,
      16#45#, 0, 0, 16#2d#, 0, 1, 0, 0, 1, 16#11#, 16#cd#, 16#cc#, 16#0a#, 1, 1, 1, 16#e0#, 16#e0#, 0, 16#11#,
      16#13#, 16#89#, 16#13#, 16#88#, 0, 16#19#, 0, 0];
   Fault : Fault_Reply := (0, 0, 0, 0, 0, 0);
   Told : Verdict_Reply := (0, 0, 0, 0, 0, 0, 0);
   Found : Read_Reply := (0, 0, 0, 0, 0);
   Taken : Take_Reply := (0, 0, 0, 0);
   Sample : Octets (0 .. Longest_Sample - 1) := [others => 0];
   Message : Octets (0 .. 63) := [others => 0];

   function As_Octets (Of_Text : String) return Octets is
     ([for I in 0 .. size_t (Of_Text'Length - 1) => Character'Pos (Of_Text (Of_Text'First + Integer (I)))]);

   procedure Check (Answer : Code) is
   begin
      if Answer /= Done then raise Program_Error with "code" & Answer'Image; end if;
   end Check;

   --  The fault of a configuration is a line on the standard error: its numbers, its place, and the line of the text.
   procedure Check_Opened (Answer : Code) is
   begin
      if Answer = Faulty then
         Put_Line (Standard_Error, "fault" & Fault.Fault'Image & ", key" & Fault.Key'Image & ", level" & Fault.Level'Image
                   & ", link" & Fault.Link'Image & ", port" & Fault.Port'Image & ", line" & Fault.Line'Image);
      end if;
      Check (Answer);
   end Check_Opened;

   procedure Show (Net : Unsigned_32; Now : Unsigned_64) is
   begin
      Check (Receive (Link_17, Net, Now, Frame, Frame'Length, Told));
      Put_Line ("frame" & Told.Kind'Image & Told.Vl'Image & Told.Port'Image & Told.Place'Image & Told.Number'Image);
   end Show;
begin
   if Library_Abi /= Abi then raise Program_Error; end if;
   Check (Init (Link_17, Receiver_Space'Address, Receiver_Space'Length));
   Check (Init (Pos, Reader_Space'Address, Reader_Space'Length));
   Check (Init (Nav, Queue_Space'Address, Queue_Space'Length));
   Check_Opened (Open (Link_17, As_Octets (Text), Text'Length, 1, Fault));
   Check (Hand_Reader (Link_17, Pos, As_Octets ("pos"), 3));
   Check (Hand_Queue (Link_17, Nav, As_Octets ("nav"), 3));
   Frame (0 .. 41) := Start;
   for I in Unsigned_8 range 0 .. 3 loop
      Frame (59) := I; Frame (37) := (if I < 2 then 16#88# else 16#8a#); Frame (42) := I;
      Show (Network_A, 1000 * Unsigned_64 (I));
      Show (Network_B, 1000 * Unsigned_64 (I) + 100);
   end loop;
   Check (Read (Pos, 4000, Sample, Sample'Length, Found));
   Put_Line ("read" & Found.Number'Image & Found.Time'Image & Found.Length'Image & Found.Valid'Image & Sample (0)'Image);
   loop
      Check (Take (Nav, Message, Message'Length, Taken));
      exit when Taken.Found = 0;
      Put_Line ("took" & Taken.Time'Image & Taken.Length'Image & Message (0)'Image);
   end loop;
   Close (Pos); Close (Nav); Close (Link_17);
end Frames;
