--
-- PostgreSQL database dump
--

\restrict vL5SWDQAcLfaFTTyQ7RBdza5YjinyXxKgBtOdeRCFgaNzF9MOfwBnQbtXwYPU1n

-- Dumped from database version 15.20 (Debian 15.20-0+deb12u1)
-- Dumped by pg_dump version 15.20 (Debian 15.20-0+deb12u1)

SET statement_timeout = 0;
SET lock_timeout = 0;
SET idle_in_transaction_session_timeout = 0;
SET client_encoding = 'UTF8';
SET standard_conforming_strings = on;
SELECT pg_catalog.set_config('search_path', '', false);
SET check_function_bodies = false;
SET xmloption = content;
SET client_min_messages = warning;
SET row_security = off;

SET default_tablespace = '';

SET default_table_access_method = heap;

--
-- Name: item; Type: TABLE; Schema: public; Owner: postgres
--

CREATE TABLE public.item (
    id integer NOT NULL,
    name text,
    price numeric(10,2),
    qty integer
);

ALTER TABLE ONLY public.item REPLICA IDENTITY FULL;


ALTER TABLE public.item OWNER TO postgres;

--
-- Name: offer; Type: TABLE; Schema: public; Owner: postgres
--

CREATE TABLE public.offer (
    id integer NOT NULL,
    name text,
    price numeric(10,2)
);

ALTER TABLE ONLY public.offer REPLICA IDENTITY FULL;


ALTER TABLE public.offer OWNER TO postgres;

--
-- Name: sale; Type: TABLE; Schema: public; Owner: postgres
--

CREATE TABLE public.sale (
    no integer NOT NULL,
    customer text,
    item integer,
    amount numeric(10,2)
);

ALTER TABLE ONLY public.sale REPLICA IDENTITY FULL;


ALTER TABLE public.sale OWNER TO postgres;

--
-- Name: item item_pkey; Type: CONSTRAINT; Schema: public; Owner: postgres
--

ALTER TABLE ONLY public.item
    ADD CONSTRAINT item_pkey PRIMARY KEY (id);


--
-- Name: offer offer_pkey; Type: CONSTRAINT; Schema: public; Owner: postgres
--

ALTER TABLE ONLY public.offer
    ADD CONSTRAINT offer_pkey PRIMARY KEY (id);


--
-- Name: sale sale_pkey; Type: CONSTRAINT; Schema: public; Owner: postgres
--

ALTER TABLE ONLY public.sale
    ADD CONSTRAINT sale_pkey PRIMARY KEY (no);


--
-- PostgreSQL database dump complete
--

\unrestrict vL5SWDQAcLfaFTTyQ7RBdza5YjinyXxKgBtOdeRCFgaNzF9MOfwBnQbtXwYPU1n

